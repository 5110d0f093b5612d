//! The proved library, by its C interface (docs/LIBRARY.md).

#[repr(C)]
#[derive(Clone, Copy, Debug, PartialEq, Eq)]
pub struct Assembly {
    pub refusal: u8,
    pub index: usize,
    pub text: usize,
    pub image: usize,
    pub run: usize,
}

#[repr(C)]
#[derive(Clone, Copy, Debug, Default, PartialEq, Eq)]
pub struct Fault {
    pub number: u8,
    pub side: u8,
    pub address: u16,
}

#[repr(C)]
#[derive(Clone, Copy, Debug, PartialEq, Eq)]
pub struct Playing {
    pub own: u64,
    pub service: u64,
    pub takings: u64,
    pub registers: [u16; 16],
    pub counter: u16,
    pub wait: u16,
    pub last: Fault,
    pub loading: u8,
    pub owing: u8,
}

extern "C" {
    fn xr16_assemble(listing: *const u8, listing_length: usize, image: *mut u8, image_length: usize) -> Assembly;

    #[allow(clippy::too_many_arguments)]
    fn xr16_play(
        memory: *mut u8,
        memory_length: usize,
        image: *const u8,
        image_length: usize,
        text: u16,
        lo: u16,
        hi: u16,
        actions: *const u8,
        actions_length: usize,
    ) -> Playing;
}

pub fn assemble(listing: &[u8], image: &mut [u8]) -> Assembly {
    // The slices are valid for their lengths, and the mutable one overlaps no other.
    unsafe { xr16_assemble(listing.as_ptr(), listing.len(), image.as_mut_ptr(), image.len()) }
}

pub fn play(memory: &mut [u8], image: &[u8], text: u16, lo: u16, hi: u16, actions: &[u8]) -> Playing {
    // The slices are valid for their lengths, and the mutable one overlaps no other.
    unsafe {
        xr16_play(
            memory.as_mut_ptr(),
            memory.len(),
            image.as_ptr(),
            image.len(),
            text,
            lo,
            hi,
            actions.as_ptr(),
            actions.len(),
        )
    }
}
