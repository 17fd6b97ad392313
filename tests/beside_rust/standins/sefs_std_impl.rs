//! Stand-in for `dev/std_impl.rs`, which keeps files in a folder of the host. Nothing of it is used: the driver brings its own
//! `Storage`.
