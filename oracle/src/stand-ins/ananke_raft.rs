//! Stand-ins for the two names invariants.rs takes from ananke-raft.

/// `apply::user_key`: only checks that are not ported call it.
pub mod apply {
    use bytes::Bytes;

    /// Stand-in: the key as it is.
    pub fn user_key(key: &[u8]) -> Bytes {
        Bytes::copy_from_slice(key)
    }
}

/// `store::RAFT_TENANT`: a value of our own type, so that the number can be set
/// at run time. invariants.rs only ever writes `u64 != RAFT_TENANT`.
pub mod store {
    use std::cell::Cell;

    thread_local! {
        static TENANT: Cell<u64> = const { Cell::new(0) };
    }

    /// Stands where the published constant is a `u64`.
    pub struct Tenant;

    /// The tenant that the comparison below reads.
    pub const RAFT_TENANT: Tenant = Tenant;

    /// Sets this thread's tenant number.
    pub fn set_tenant(number: u64) {
        TENANT.with(|tenant| tenant.set(number));
    }

    impl PartialEq<Tenant> for u64 {
        fn eq(&self, _: &Tenant) -> bool {
            TENANT.with(|tenant| tenant.get() == *self)
        }
    }
}
