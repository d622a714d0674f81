#!/usr/bin/env python3
"""Turns older proofs of functions, `proofs/F/Proof.antt` with `tie.close (tie.spec ..)`, to Invariants.antt and Answers.antt.

usage: python3 tools/answers.py CRATE [F..]        at the top; F as a folder below the crate's proofs/

It asks the check for the old and new names of goals and steps (`rt check --generated DIR --old-names`), so the crates below have
to be proved. Answers that the check finds by itself are left out. Chains of `.before` go: all facts are fields of `c`. A helper
that was a function of a place becomes a `let` in each answer that uses it. What it cannot turn it names, and leaves to a hand:
`w.N` of arms that join, arms of a `match`, helpers with `where`. The older file is removed; git has it.
"""
import json,os,re,subprocess,sys,tempfile
root=os.getcwd()
crate=sys.argv[1]; only=sys.argv[2:]
names=tempfile.mkdtemp()
subprocess.run(['rt','check','--generated',names,'--old-names'],cwd=f'crates/{crate}',stdout=subprocess.DEVNULL,stderr=subprocess.DEVNULL)
J=json.load(open(f'{names}/names.json'))
base=f'{root}/crates/{crate}/proofs'
IDC=r"[\w'\-₀-₉]"
def norm(s): return s.replace('-','_')
def blocks(text):
    """top-level blocks: list of (comment, name, sig, unf, body) or ('raw', lines)"""
    lines=text.split('\n'); i=0; out=[]; com=[]
    while i<len(lines):
        l=lines[i]
        if not l.strip():
            if com: out.append(('com',com)); com=[]
            i+=1; continue
        if l.startswith('--'): com.append(l); i+=1; continue
        if l.startswith('use '): 
            out.append(('use',com+[l])); com=[]; i+=1; continue
        # block: until next col-0 line that isn't continuation of same name
        m=re.match(r"(?:pub |abbrev |unfoldable )*([^\s:(]+)\s*:",l)
        j=i+1
        blk=[l]
        name=m.group(1) if m else None
        while j<len(lines):
            n=lines[j]
            if n.startswith(' ') or n.startswith(')'): blk.append(n); j+=1; continue
            if not n.strip():
                # blank: look ahead for indented
                k=j
                while k<len(lines) and not lines[k].strip(): k+=1
                if k<len(lines) and lines[k].startswith(' '): blk.append(n); j+=1; continue
                break
            if name and (re.match(re.escape(name)+r"(\s|$)",n) and not re.match(r"(?:pub |abbrev |unfoldable )*"+re.escape(name)+r"\s*:",n) or n.startswith('unfolding ')):
                blk.append(n); j+=1; continue
            break
        out.append(('blk',com,name,blk)); com=[]; i=j
    if com: out.append(('com',com))
    return out
def split_decl(name,blk):
    """sig text, unfolding list, clauses text list"""
    sig=[];unf=[];cl=[];st='sig'
    for l in blk:
        if st=='sig' and l.startswith('unfolding '): unf+=l.split()[1:]; st='unf'; continue
        if l.startswith('unfolding '): unf+=l.split()[1:]; continue
        if re.match(re.escape(name)+r"(\s|$)",l) and not re.match(r"(?:pub |abbrev |unfoldable )*"+re.escape(name)+r"\s*:",l) : st='cl'
        if st in('sig','unf'): sig.append(l)
        else: cl.append(l)
    return '\n'.join(sig),unf,'\n'.join(cl)
def parse_args(s):
    """split application args at depth 0"""
    out=[];i=0
    while i<len(s):
        if s[i].isspace(): i+=1; continue
        if s[i] in '({[':
            d=0;j=i
            while True:
                if s[j] in '({[': d+=1
                elif s[j] in ')}]': d-=1
                j+=1
                if d==0: break
            # trailing .field
            while j<len(s) and s[j]=='.' : 
                k=j+1
                while k<len(s) and re.match(IDC,s[k]): k+=1
                j=k
            out.append(s[i:j]); i=j
        else:
            j=i
            while j<len(s) and not s[j].isspace() and s[j] not in '()': j+=1
            out.append(s[i:j]); i=j
    return out
def found(where,parts,pattern):
    """What the pattern finds behind `fn NAME` of the function at modules/NAME of a crate, or None."""
    for f in ['/'.join(parts[:-1])+'.rt'] if len(parts)>1 else ['lib.rt','main.rt']:
        p=f'{root}/crates/{where}/src/{f}'
        if os.path.exists(p):
            m=re.search(r"fn "+re.escape(parts[-1])+r"(?:<[^>]*>)?"+pattern,open(p,encoding='utf-8').read(),re.S)
            if m: return m
    return None
def params(where,parts):
    """the parameters with their types"""
    m=found(where,parts,r"\(([^)]*)\)")
    return [x.replace('mut ','').strip() for x in m.group(1).split(',') if x.strip()] if m else []
def name_of(parameter): return parameter.split(':')[0].strip()
def compared_in(where,parts):
    """the locals that hold the answer of a comparison"""
    m=found(where,parts,r"\(.*?\n\}\n")
    return set(re.findall(r"let (?:mut )?(\w+)(?:: bool)? = [^;]*(?:==|!=|<=|>=| < | > )",m.group(0))) if m else set()
def clauses_of(callee):
    """the names of the callee's ensures"""
    where,*parts=callee.split('::')
    m=found(where,parts,r"\(.*?\n\{\n")
    return re.findall(r"^\s*ensures (\w+) \{",m.group(0),re.M) if m else []
report=[]
def conv(fn,path):
    text=open(path,encoding='utf-8').read()
    key=f'Rattle-{crate}-proofs.{fn.replace("/",".")}.Lts'
    if 'tie.close' not in text: report.append(f'{fn}: no tie.close'); return
    if key not in J: report.append(f'{fn}: no {key}'); return
    E=J[key]
    LETS=compared_in(crate,fn.split('/')); BOOLS={name_of(x) for x in params(crate,fn.split('/')) if x.endswith(': bool')}
    PS=[name_of(x) for x in params(crate,fn.split('/'))]
    steps={}
    for p in E['places']:
        o,n=p[2]
        if o: steps.setdefault(norm(o),n)
    bl=blocks(text)
    head=[];uses=[];decls={};order=[];raw=[]
    for b in bl:
        if b[0]=='use': uses+=b[1]
        elif b[0]=='com':
            if not order: head+=b[1]
        else:
            _,com,name,blk=b
            if name is None:
                raw.append('\n'.join(com+blk)+'\n')
                report.append(f'{fn}: raw block kept {blk[0][:60]}'); continue
            decls[name]=(com,)+split_decl(name,blk); order.append(name)
    # first comment
    if uses and uses[0].startswith('--'):
        k=0
        while k<len(uses) and uses[k].startswith('--'): k+=1
        head=uses[:k]+head; uses=uses[k:]
    # spec
    specname=[n for n in order if 'tie.close' in decls[n][3]][0]
    body=decls[specname][3]
    body=body[body.index('tie.close')+len('tie.close'):].strip()
    a=parse_args(body)
    if not (len(a)==1 and a[0].startswith('(tie.spec')):
        report.append(f'{fn}: odd close: {a[:2]}'); return
    inner=parse_args(a[0][1:-1])
    assert inner[0]=='tie.spec'
    args=inner[1:]
    nl=len(E['loops'])
    invargs=args[:2*nl]; goals=args[2*nl:]
    needs=[n for n in E['needs']]
    declared_need={}
    places={}   # helper -> number of place param
    # helper detection
    def isplace(t): return re.match(r"tie\.(Start|After|In|At|Else|Then|Joined|Met)(?![a-z])",t.strip()) is not None
    helpers={}
    for n in order:
        com,sig,unf,cl=decls[n]
        t=sig.split(':',1)[1].strip()
        if re.match(r"tie\.Need-",t) or 'tie.invariant' in t or 'tie.decreases' in t or n==specname: continue
        m=re.match(r"(?:\(([^\s:()]+) : (tie\.[\w\-₀-₉']+)[^()]*\)|(tie\.[\w\-₀-₉']+)(?: invariant_loop\w*| decreases_loop\w*| invariant-loop\w*| decreases-loop\w*)*)\s*(→\s*|(?=[({]))",t,re.S)
        if m and isplace(m.group(2) or m.group(3)):
            rest=t[m.end():]
            helpers[n]=(m.group(1),rest)
        elif 'tie.' in t:
            report.append(f'{fn}: helper {n} of odd type {t[:80]}')
    ident={n for n in helpers if isplace(helpers[n][1])}
    def strip(body,pv):
        """pv: place variables; returns text with .before gone and place variables as c"""
        s=body
        # identity helpers
        prev=None
        while prev!=s:
            prev=s
            s=re.sub(r"(?:\.before)+(?!"+IDC+")","",s)
            s=re.sub(r"\.inv(?!"+IDC+")",".invariant",s)
            s=s.replace('well-formed','well_formed')
            for h in ident:
                s=re.sub(r"\(\s*"+re.escape(h)+r"\s+("+IDC+r"+|\([^()]*\))\s*\)",lambda m:m.group(1),s)
                s=re.sub(r"(?<!"+IDC+r")(?<!\.)"+re.escape(h)+r"\s+("+IDC+r"+)(?=[\s,;)]|$)",lambda m:m.group(1),s)
            s=re.sub(r"\(("+IDC+r"+)\)",lambda m:m.group(1) if m.group(1) in pv else m.group(0),s)
            # aliases: let X = pv in
            m=re.search(r"let ("+IDC+r"+) = ("+IDC+r"+) in\s*",s)
            if m and m.group(2) in pv:
                s=s[:m.start()]+s[m.end():]; pv.add(m.group(1))
                continue
            m=re.search(r"let ("+IDC+r"+) : tie\.[\w\-]+ = ("+IDC+r"+) in\s*",s)
            if m and m.group(2) in pv:
                s=s[:m.start()]+s[m.end():]; pv.add(m.group(1))
        for v in pv:
            if v!='c': s=re.sub(r"(?<![\w'\-₀-₉.])"+re.escape(v)+r"(?![\w'\-₀-₉])(?! = )","c",s)
        s=re.sub(r"(\.if\d+)\.left(?!"+IDC+")",r"\1.false",s)
        s=re.sub(r"(\.if\d+)\.taken(?!"+IDC+")",r"\1.true",s)
        # helper applications
        used=[]
        for h in helpers:
            if h in ident: continue
            def drop(m):
                used.append(h); return h
            s2=re.sub(r"(?<![\w'\-₀-₉.])"+re.escape(h)+r"\s+c(?![\w'\-₀-₉.])",drop,s)
            s=s2
            if re.search(r"(?<![\w'\-₀-₉.])"+re.escape(h)+r"(?![\w'\-₀-₉])",s) and h not in used: used.append(h)
        # (h).field -> h.field
        for h in used: s=re.sub(r"\("+re.escape(h)+r"\)(?=\.)",h,s)
        # steps
        def step(m):
            k=m.group(1)
            return 'c.'+(steps.get(norm(k)) or steps.get(re.sub('_lem$','',norm(k))) or k)
        s=re.sub(r"(?<![\w'\-₀-₉.])c\.("+IDC+r"+)",step,s)
        def arg(m):
            k=int(m.group(1))
            return 'c.args.'+PS[k-1] if f't{k}' not in PS and k<=len(PS) else m.group(0)
        s=re.sub(r"c\.args\.t(\d+)(?!"+IDC+")",arg,s)
        for o,n in E['args']:
            o=o.split()[-1]; n=n.split()[-1]
            if re.fullmatch(r"\.t\d+",o): s=re.sub(re.escape(o)+r"(?!"+IDC+")",n,s)
        s=re.sub(r"(?<![\w'\-₀-₉.])c\.pre(?!"+IDC+")","c.requires",s)
        # what a call leaves in its parameter number n is .new, n times .1, and .0
        def newk(m):
            st=m.group(1); k=m.group(2).count('.1')
            cal=[p[3] for p in E['places'] if p[2][1]==st and p[3]]
            if not cal: return m.group(0)
            where,*parts=cal[0].split('::')
            ps=params(where,parts)
            return f'c.{st}.new.{name_of(ps[k])}' if k<len(ps) else m.group(0)
        s=re.sub(r"(?<![\w'\-₀-₉.])c\.("+IDC+r"+)\.new((?:\.1)*)\.0(?!"+IDC+")",newk,s)
        def ens(m):
            st=m.group(1); k=int(m.group(2))
            cal=[p[3] for p in E['places'] if p[2][1]==st and p[3]]
            if not cal: return m.group(0)
            mp=clauses_of(cal[0])
            return f'c.{st}.ensures.{mp[k]}' if k<len(mp) else m.group(0)
        s=re.sub(r"(?<![\w'\-₀-₉.])c\.("+IDC+r"+)\.ensures\.(\d+)",ens,s)
        callees={p[3].split('::')[-1] for p in E['places'] if p[3]}
        def of_call(path):
            x=re.match(r"c\.if-not-([A-Za-z0-9_]+)",path).group(1)
            return x in callees or x in BOOLS
        def raw_branch(m):
            return f'c.if-{m.group(1)}.{m.group(2)}-raw' if m.group(1) in LETS else m.group(0)
        s=re.sub(r"(?<![\w'\-₀-₉.])c\.if-(\w+)\.(true|false)(?![\w\-])",raw_branch,s)
        # a branch on !f says of f itself what it answered
        s=re.sub(r"\bnot-(?:true|false) (?:_|"+IDC+r"+) (c\.if-not-"+IDC+r"+\.(?:true|false))",lambda m:(m.group(1) if of_call(m.group(1)) else m.group(0)),s)
        out='';i=0
        for m in re.finditer(r"(?<![\w'\-.])is_(?:no|yes)\s+",s):
            if m.start()<i: continue
            rest=s[m.end():]
            # two args
            j=0;got=[]
            while len(got)<2 and j<len(rest):
                if rest[j].isspace(): j+=1; continue
                k=j
                if rest[j] in '(':
                    d=0
                    while True:
                        if rest[k] in '(': d+=1
                        elif rest[k] in ')': d-=1
                        k+=1
                        if d==0: break
                    while k<len(rest) and not rest[k].isspace() and rest[k] not in '(),;]': k+=1
                else:
                    while k<len(rest) and not rest[k].isspace() and rest[k] not in '(),;]': k+=1
                    if k==j: break
                got.append(rest[j:k]); j=k
            if len(got)==2 and re.match(r"c\.if-not-",got[1]) and of_call(got[1]):
                a0='' if got[0]=='refl' else f'sym {got[0]} ∙ '
                out+=s[i:m.start()]+ (got[1] if got[0]=='refl' else f'({a0}{got[1]})')
                i=m.end()+j
        s=out+s[i:]
        return s,used
    def clause(n,cl):
        """(params, body)"""
        m=re.match(re.escape(n)+r"((?:\s+[^\s=]+)*)\s*=(?=\s)",cl)
        if not m: return None
        return m.group(1).split(),cl[m.end():].strip('\n')
    def helper_lets(used,done):
        lets=[];unf=[]
        for h in used:
            if h in done: continue
            done.add(h)
            com,sig,un,cl=decls[h]
            p=clause(h,cl)
            if p is None or 'where' in cl.split(): report.append(f'{fn}: helper {h} has clauses/where'); continue
            ps,b=p
            pv={ps[0]} if ps else {'c'}
            if not ps: report.append(f'{fn}: helper {h} point-free')
            b2,u2=strip(b,set(pv))
            name0,t=helpers[h]
            t2,u3=strip(t,{name0} if name0 else set())
            l,un2=helper_lets([x for x in u2+u3 if x!=h],done)
            lets+=l; unf+=un2+un
            lam=''.join(f'λ {" ".join(ps[1:])}. ' if len(ps)>1 else '')
            bt=b2.strip()
            lets.append(f'let {h} : {" ".join(t2.split())} = {lam}{bt} in')
        return lets,unf
    ans=[];keep_plain=set()
    def emit(new,params,body,unf,com):
        pv={params[0]} if params else {'c'}
        b,used=strip(body,set(pv))
        lets,un=helper_lets(used,set())
        un=list(dict.fromkeys(unf+un))
        t=' '.join(b.split())
        if t in('search rules','omega arith','(search rules)','(omega arith)') and not un: return
        s=''
        if com: s+='\n'.join(com)+'\n'
        s+=f'pub {new} : goal.{new}\n'
        if un: s+='unfolding '+' '.join(un)+'\n'
        s+=f'{new} c =\n'
        for l in lets: s+='    '+l+'\n'
        bl=b.strip('\n')
        if '\n' in bl or lets:
            ls=bl.split('\n')
            s+='    '+ls[0].strip()+'\n'+'\n'.join(('    '+x if not x.startswith('    ') else x) for x in ls[1:])+'\n'
        else: s+='    '+bl.strip()+'\n'
        ans.append(re.sub(r'\n+$','\n',s))
    if len(goals)!=len(needs):
        report.append(f'{fn}: {len(goals)} old answers, {len(needs)} new needs: {[n[1] for n in needs]} settled {E["settled"]}')
    usedneed=set()
    def by_name(oldneed):
        for o,n in needs:
            if norm(o)==norm(oldneed) and n not in usedneed: return n
        for o,n in needs:
            if norm(n)==norm(oldneed) and n not in usedneed: return n
        return None
    for i,g in enumerate(goals):
        new=None
        if len(goals)==len(needs): new=needs[i][1]
        if re.fullmatch(IDC+r"+",g):
            if g not in decls: report.append(f'{fn}: answer {g} is no declaration'); continue
            com,sig,unf,cl=decls[g]
            t=sig.split(':',1)[1].strip().split()[0]
            if new is None: new=by_name(t.replace('tie.Need-',''))
            if new is None: report.append(f'{fn}: no new goal for {t}'); new='TODO-'+t.replace('tie.Need-','')
            p=clause(g,cl)
            if p is None: report.append(f'{fn}: answer {g} odd clause'); continue
            if re.search(r'(^|\s)where(\s|$)',cl): report.append(f'{fn}: answer {g} has where')
            usedneed.add(new)
            emit(new,p[0],p[1],unf,com)
        else:
            m=re.match(r"\(\s*λ\s+([^.]*)\.\s*(.*)\)$",g,re.S)
            if not m: report.append(f'{fn}: inline answer {g[:60]}'); continue
            b=m.group(2).strip()
            if b in('search rules','omega arith'): continue
            if new is None: 
                report.append(f'{fn}: inline answer {i} unplaced: {b[:100]}'); new=f'TODO-{i}'
            usedneed.add(new)
            emit(new,m.group(1).split(),b,decls[specname][2],[])
    # invariants
    inv=[]
    for k,(nm,vars_) in enumerate(E['loops']):
        newloop=nm[1]
        ch=E['changed'][k]
        order_=[]
        for v,c in zip(vars_,ch):
            order_.append(f'l.initial.{v}' if c else f'l.{v}')
        for v,c in zip(vars_,ch):
            if c: order_.append(f'l.{v}')
        for kind,g in (('invariant',invargs[2*k]),('decreases',invargs[2*k+1])):
            if g not in decls:
                m=re.match(r"\(\s*λ\s+([^.]*)\.\s*(.*)\)$",g,re.S)
                if not m: report.append(f'{fn}: loop arg {g}'); continue
                ps,b,unf,com=m.group(1).split(),m.group(2),[],[]
            else:
                com,sig,unf,cl=decls[g]
                p=clause(g,cl)
                if p is None: report.append(f'{fn}: invariant {g} odd'); continue
                ps,b=p
            if len(ps)!=len(order_): report.append(f'{fn}: {kind} {newloop} has {len(ps)} params {ps}, new {order_}')
            mp=dict(zip(ps,order_))
            pos=0
            while True:
                m=re.compile(r"λ ([^.]*)\.\s").search(b,pos)
                if not m: break
                pos=m.end()
                for x in re.findall(IDC+r"+",m.group(1)):
                    if x in mp:
                        d=0;e=len(b)
                        for q in range(m.start(),len(b)):
                            if b[q]=='(' : d+=1
                            elif b[q]==')':
                                d-=1
                                if d<0: e=q;break
                        fresh=[y for y in ('k','j','q','w','z','y') if y not in mp and not re.search(r"(?<![\w'.-])"+y+r"(?![\w'-])",b)][0]
                        part=re.sub(r"(?<![\w'\-₀-₉.])"+re.escape(x)+r"(?![\w'\-₀-₉])",fresh,b[m.start():e])
                        b=b[:m.start()]+part+b[e:]
            def sub(m):
                return mp.get(m.group(0),m.group(0))
            b2=re.sub(r"(?<![\w'\-₀-₉.])[A-Za-z_]"+IDC+r"*(?![\w'\-₀-₉])",sub,b)
            s=''
            if com: s+='\n'.join(com)+'\n'
            s+=f'abbrev pub {kind}-{newloop} : goal.{kind}-{newloop}\n'
            if unf: s+='unfolding '+' '.join(unf)+'\n'
            s+=f'{kind}-{newloop} l =\n    '+b2.strip()+'\n'
            inv.append(s)
    # plain helpers
    plain=[];pnames={}
    for n in order:
        if n in helpers or n==specname: continue
        com,sig,unf,cl=decls[n]
        if 'tie.' in sig: continue
        s=('\n'.join(com)+'\n' if com else '')+sig+'\n'+('unfolding '+' '.join(unf)+'\n' if unf else '')+cl+'\n'
        plain.append(s); pnames[n]=s
    plain=raw+plain if any(r.lstrip().startswith(('record','--')) for r in raw) else plain+raw
    for r in raw:
        m=re.search(r"^(?:pub )?(?:record|data) (\S+)",r,re.M)
        if m: pnames[m.group(1)]=r
    inside=[];more=True
    while more:
        more=False
        txt='\n'.join(inv+[pnames[x] for x in inside])
        for n in pnames:
            if n not in inside and re.search(r"(?<![\w'\-₀-₉.])"+re.escape(n)+r"(?![\w'\-₀-₉])",txt): inside.append(n); more=True
    uses2=[u for u in uses if '.Statement.{' not in u and '.Tie as tie' not in u and '.Tie.{' not in u]
    mod=f'Rattle.{crate}.proofs.{fn.replace("/",".")}'
    alltext='\n'.join(plain+ans)
    def imported(n): return any(re.search(r"[{,]\s*"+re.escape(n)+r"\s*[,}]",u) for u in uses2)
    miss=[n for n,pat in (('sym',r"(?<![\w.'\-])sym(?![\w'\-])"),('◌∙◌',r"∙")) if re.search(pat,alltext) and not imported(n)]
    if miss: uses2.append('use mathlib.Core.Path.{'+', '.join(miss)+'}')
    d=os.path.dirname(path)
    os.remove(path)
    if inv:
        open(d+'/Invariants.antt','w').write('\n'.join([*uses2,f'use {mod}.Given as goal'])+'\n\n'+''.join(pnames[n]+'\n' for n in pnames if n in inside)+'\n'.join(inv))
    if ans:
        open(d+'/Answers.antt','w').write('\n'.join([*head,*uses2,f'use {mod}.Goals as goal'])+'\n\n'+'\n'.join(plain)+('\n' if plain else '')+'\n'.join(ans))
    elif not inv:
        try: os.rmdir(d)
        except OSError: pass
for d,ds,fs in sorted(os.walk(base)):
    if 'Proof.antt' in fs:
        fn=os.path.relpath(d,base)
        if only and fn not in only: continue
        conv(fn,d+'/Proof.antt')
print('\n'.join(report))
