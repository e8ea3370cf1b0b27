//! PNG read: every colour type and depth of up to 8 bits, in order and interlaced;
//! what isn't read; damaged files; and what another reader makes of the same bytes.

mod damaged;
mod good;
mod maker;
mod others;
