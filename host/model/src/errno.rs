//! The numbers of a refusal, those of Linux on x86-64.

/// The sender may not signal the target.
pub const EPERM: u32 = 1;
/// Who acts or is meant is not live.
pub const ESRCH: u32 = 3;
/// No free place, or no room for a record.
pub const EAGAIN: u32 = 11;
/// A table has another length, or the store is not sound.
pub const EFAULT: u32 = 14;
/// An added id is live already.
pub const EEXIST: u32 = 17;
/// A signal, a flag, a way or an id that is none.
pub const EINVAL: u32 = 22;
