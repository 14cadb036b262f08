#[repr(C)]
#[derive(Clone, Copy)]
struct Handle {
    at: *mut u8,
    kind: u32,
}

#[repr(C)]
struct State {
    offset: i32,
    daylight: u32,
    name_length: usize,
    name: [u8; 17],
}

extern "C" {
    fn pzic_raw_zone_read(bytes: *const u8, length: usize, zone: *mut Handle, reason: *mut u32) -> i32;
    fn pzic_raw_zone_at(zone: *mut Handle, instant: i64, state: *mut State) -> i32;
    fn pzic_raw_free(zone: *mut Handle);
}

/// A zone, which any number of threads may read.
struct Zone(Handle);

// SAFETY: a call that reads is given a copy of the handle, and leaves what that holds as it was.
unsafe impl Send for Zone {}
unsafe impl Sync for Zone {}

impl Zone {
    fn read(bytes: &[u8]) -> Option<Zone> {
        let (mut handle, mut reason) = (Handle { at: std::ptr::null_mut(), kind: 0 }, 0);
        // SAFETY: the declaration is that of pzic.h, and no pointer of a slice is NULL.
        let status = unsafe { pzic_raw_zone_read(bytes.as_ptr(), bytes.len(), &mut handle, &mut reason) };
        (status == 0).then_some(Zone(handle))
    }

    fn at(&self, instant: i64) -> Option<(i32, String)> {
        let mut own = self.0;
        let mut state = State { offset: 0, daylight: 0, name_length: 0, name: [0; 17] };
        // SAFETY: as above.
        let status = unsafe { pzic_raw_zone_at(&mut own, instant, &mut state) };
        let name = String::from_utf8_lossy(&state.name[..state.name_length.min(16)]).into_owned();
        (status == 0).then_some((state.offset, name))
    }
}

impl Drop for Zone {
    fn drop(&mut self) {
        // SAFETY: the handle has no other owner.
        unsafe { pzic_raw_free(&mut self.0) }
    }
}

fn main() {
    let bytes = std::fs::read(std::env::args().nth(1).unwrap()).unwrap();
    let zone = Zone::read(&bytes).unwrap();
    std::thread::scope(|scope| {
        let reader = scope.spawn(|| zone.at(1_720_000_000).unwrap());
        let (offset, name) = reader.join().unwrap();
        println!("{offset} {name}");
    });
}

/* Prints:
3600 IST
*/
