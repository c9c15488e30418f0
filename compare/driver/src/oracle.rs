//! The Rust of docs/src with the tag size as a value, over either of the stand-in rounds.

/// The same functions over one copy of the crate.
macro_rules! over {
    ($name:ident, $krate:ident) => {
        pub mod $name {
            use $krate::aegis128l::{Aegis128L, Aegis128LMac};

            type Block = [u8; 16];

            fn sized<const T: usize>(tag: &[u8]) -> &[u8; T] {
                tag.try_into().expect("a tag of 16 or 32 bytes")
            }

            /// `encrypt`: ciphertext and tag.
            pub fn seal(key: &Block, nonce: &Block, ad: &[u8], msg: &[u8], tag_size: usize) -> (Vec<u8>, Vec<u8>) {
                fn sealed<const T: usize>(key: &Block, nonce: &Block, ad: &[u8], msg: &[u8]) -> (Vec<u8>, Vec<u8>) {
                    let (ct, tag) = Aegis128L::<T>::new(key, nonce).encrypt(msg, ad);
                    (ct, tag.to_vec())
                }
                match tag_size {
                    16 => sealed::<16>(key, nonce, ad, msg),
                    _ => sealed::<32>(key, nonce, ad, msg),
                }
            }

            /// `encrypt_in_place`: the tag.
            pub fn seal_in_place(key: &Block, nonce: &Block, ad: &[u8], buf: &mut [u8], tag_size: usize) -> Vec<u8> {
                match tag_size {
                    16 => Aegis128L::<16>::new(key, nonce).encrypt_in_place(buf, ad).to_vec(),
                    _ => Aegis128L::<32>::new(key, nonce).encrypt_in_place(buf, ad).to_vec(),
                }
            }

            /// `decrypt`: the message, unless the tag differs.
            pub fn open(key: &Block, nonce: &Block, ad: &[u8], ct: &[u8], tag: &[u8]) -> Option<Vec<u8>> {
                match tag.len() {
                    16 => Aegis128L::<16>::new(key, nonce).decrypt(ct, sized(tag), ad).ok(),
                    _ => Aegis128L::<32>::new(key, nonce).decrypt(ct, sized(tag), ad).ok(),
                }
            }

            /// `decrypt_in_place`: whether the tag was right.
            pub fn open_in_place(key: &Block, nonce: &Block, ad: &[u8], buf: &mut [u8], tag: &[u8]) -> bool {
                match tag.len() {
                    16 => Aegis128L::<16>::new(key, nonce).decrypt_in_place(buf, sized(tag), ad).is_ok(),
                    _ => Aegis128L::<32>::new(key, nonce).decrypt_in_place(buf, sized(tag), ad).is_ok(),
                }
            }

            pub fn stream(key: &Block, nonce: &Block, out: &mut [u8]) {
                Aegis128L::<16>::new(key, nonce).stream(out)
            }

            pub fn stream_xor(key: &Block, nonce: &Block, buf: &mut [u8]) {
                Aegis128L::<16>::new(key, nonce).stream_xor_in_place(buf)
            }

            pub fn mac(key: &Block, nonce: &Block, data: &[u8], tag_size: usize) -> Vec<u8> {
                fn tagged<const T: usize>(key: &Block, nonce: &Block, data: &[u8]) -> Vec<u8> {
                    let mut mac = Aegis128LMac::<T>::new_with_nonce(key, nonce);
                    mac.update(data);
                    mac.finalize().to_vec()
                }
                match tag_size {
                    16 => tagged::<16>(key, nonce, data),
                    _ => tagged::<32>(key, nonce, data),
                }
            }

            /// `verify`: whether the tag was right.
            pub fn mac_check(key: &Block, nonce: &Block, data: &[u8], tag: &[u8]) -> bool {
                fn verified<const T: usize>(key: &Block, nonce: &Block, data: &[u8], tag: &[u8]) -> bool {
                    let mut mac = Aegis128LMac::<T>::new_with_nonce(key, nonce);
                    mac.update(data);
                    mac.verify(sized(tag)).is_ok()
                }
                match tag.len() {
                    16 => verified::<16>(key, nonce, data, tag),
                    _ => verified::<32>(key, nonce, data, tag),
                }
            }
        }
    };
}

over!(plain, aegis_plain);
over!(table, aegis_table);
