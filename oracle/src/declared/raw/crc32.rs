// The checksum, as far as `Fst::verify` in mod.rs names it. Document 01 leaves verification out; nothing calls this.

pub struct CheckSummer;

impl CheckSummer {
    pub fn new() -> CheckSummer {
        unreachable!("no checksum is verified here")
    }

    pub fn update(&mut self, _: &[u8]) {
        unreachable!("no checksum is verified here")
    }

    pub fn masked(&self) -> u32 {
        unreachable!("no checksum is verified here")
    }
}
