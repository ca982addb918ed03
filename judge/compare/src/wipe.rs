//! What the library gives back is zero, and what the original gives back keeps its bytes. So these blocks, and no others, become
//! zero on the original's side, too: where the images are the same then, ours are zero there.
use crate::call::Call;
use crate::original::Original;
use crate::party::Party;
use volumes::Geometry;

/// The bitmap before a call that may give blocks back.
pub struct Before {
    geometry: Geometry,
    bitmap: Vec<u8>,
}

impl Before {
    /// None where the call gives nothing back. A format gives nothing back: it looks at no bit.
    pub fn of(by: &dyn Party, call: &Call, image: &[u8], k: u32) -> Option<Before> {
        if !by.known().wiping || !(call.stores() || matches!(call, Call::Delete { .. })) {
            return None;
        }
        let geometry = Geometry::of(image, k)?;
        Some(Before { geometry, bitmap: image[geometry.place(geometry.bitmap())..geometry.place(geometry.data())].to_vec() })
    }

    /// Makes zero what the original has given back since.
    pub fn wipe(self, original: &mut dyn Original) {
        let Before { geometry, bitmap } = self;
        let after: Vec<u8> = (geometry.bitmap()..geometry.data()).flat_map(|addr| original.block(addr)).collect();
        for (place, (before, after)) in bitmap.iter().zip(after).enumerate() {
            let freed = before & !after;
            for bit in (0..8).filter(|bit| freed >> bit & 1 == 1) {
                let addr = geometry.data() + 8 * place as u32 + bit;
                if addr < geometry.blocks() {
                    original.wipe(addr);
                }
            }
        }
    }
}
