//! Stands in for the crate `bitcoin`, which the original names and which is not at hand: only what it takes to compile.
/// No hash is compared: a call stops the run.
pub mod hashes {
    pub trait Hash: Sized {
        fn hash(_bytes: &[u8]) -> Self {
            panic!("the shim of `bitcoin` has no hash")
        }
    }

    pub mod sha256 {
        #[derive(Clone, Copy)]
        pub struct Hash;

        impl super::Hash for Hash {}

        impl std::fmt::Display for Hash {
            fn fmt(&self, _f: &mut std::fmt::Formatter<'_>) -> std::fmt::Result {
                panic!("the shim of `bitcoin` has no hash")
            }
        }
    }
}

/// The addrv2 entry and its address.
pub mod p2p {
    pub mod address {
        use std::net::{Ipv4Addr, Ipv6Addr, SocketAddr};

        #[derive(Clone, Debug, PartialEq, Eq)]
        pub enum AddrV2 {
            Ipv4(Ipv4Addr),
            Ipv6(Ipv6Addr),
            TorV2([u8; 10]),
            TorV3([u8; 32]),
            I2p([u8; 32]),
            Cjdns(Ipv6Addr),
            Unknown(u8, Vec<u8>),
        }

        #[derive(Clone, Debug, PartialEq, Eq)]
        pub struct AddrV2Message {
            pub addr: AddrV2,
            pub port: u16,
        }

        impl AddrV2Message {
            /// The address and port as sent, for the two networks of plain addresses (document 01, Filters).
            pub fn socket_addr(&self) -> Result<SocketAddr, ()> {
                match &self.addr {
                    AddrV2::Ipv4(v) => Ok(SocketAddr::from((*v, self.port))),
                    AddrV2::Ipv6(v) => Ok(SocketAddr::from((*v, self.port))),
                    _ => Err(()),
                }
            }
        }
    }
}
