//! The exported call.

extern "C" {
    fn roof_listing(
        plan: *const u8,
        plan_length: usize,
        evidence: *const u8,
        evidence_length: usize,
        place: *mut u8,
        place_length: usize,
    ) -> i32;
}

/// What is passed as the address of an empty slice.
#[derive(Clone, Copy)]
pub enum EmptyAs {
    Address,
    Null,
}

impl EmptyAs {
    fn address(self, bytes: &[u8]) -> *const u8 {
        match self {
            EmptyAs::Null if bytes.is_empty() => std::ptr::null(),
            _ => bytes.as_ptr(),
        }
    }
}

pub fn call(plan: &[u8], evidence: &[u8], place: &mut [u8], empty: EmptyAs) -> i32 {
    let place_address = match empty {
        EmptyAs::Null if place.is_empty() => std::ptr::null_mut(),
        _ => place.as_mut_ptr(),
    };
    // The three slices are valid for their lengths, and the place overlaps no other.
    unsafe {
        roof_listing(
            empty.address(plan),
            plan.len(),
            empty.address(evidence),
            evidence.len(),
            place_address,
            place.len(),
        )
    }
}
