//! A lent slice between guard bytes.

/// Guard bytes behind a slice.
const BACK: usize = 64;

#[derive(Clone, PartialEq, Eq)]
pub struct Arena {
    bytes: Vec<u8>,
    front: usize,
    capacity: usize,
}

impl Arena {
    /// Guard bytes, room for a slice of `capacity` bytes, guard bytes, all of them different from
    /// their neighbours.
    pub fn new(front: usize, capacity: usize) -> Arena {
        let total = front + capacity + BACK;
        let bytes = (0..total).map(|i| (i % 251) as u8 ^ 0x5A).collect();
        Arena { bytes, front, capacity }
    }

    /// An arena whose slice holds the given bytes.
    pub fn holding(front: usize, content: &[u8]) -> Arena {
        let mut arena = Arena::new(front, content.len());
        arena.write(0, content);
        arena
    }

    /// The length of the room.
    pub fn capacity(&self) -> usize {
        self.capacity
    }

    /// The first `length` bytes of the room.
    pub fn slice(&mut self, length: usize) -> &mut [u8] {
        &mut self.bytes[self.front..self.front + length]
    }

    /// Where the slice starts; valid for the guard bytes around it too.
    pub fn start(&mut self) -> *mut u8 {
        self.bytes[..].as_mut_ptr().wrapping_add(self.front)
    }

    /// Writes what lies within the room.
    pub fn write(&mut self, at: usize, content: &[u8]) {
        let room = &mut self.bytes[self.front..self.front + self.capacity];
        room.iter_mut().skip(at).zip(content).for_each(|(byte, new)| *byte = *new);
    }

    /// Whether two arenas of one shape are the same; if not, the first byte that differs, in words.
    pub fn same(&self, expected: &Arena, name: &str) -> Result<(), String> {
        let mut pairs = self.bytes.iter().zip(&expected.bytes);
        let Some(at) = pairs.position(|(got, due)| got != due) else { return Ok(()) };
        let (got, due) = (self.bytes[at], expected.bytes[at]);
        let at = at as isize - self.front as isize;
        Err(format!("byte {at} of the {name} is {got:02X}, expected {due:02X}"))
    }
}
