//! Stand-in for airfrog_rpc: the one trait that the Rust reads a board through.

pub mod io {
    use core::future::Future;

    pub trait Reader {
        type Error;

        fn read(&mut self, addr: u32, buf: &mut [u8]) -> impl Future<Output = Result<(), Self::Error>>;

        fn update_base_address(&mut self, base_address: u32);
    }
}
