//! The plain checkers, in a crate of their own so that their code can be shifted on its own.

pub mod plain;

// Puts the plain checkers so many bytes after a multiple of 64; "R" keeps it although nothing refers to it.
std::arch::global_asm!(
    ".section .text.pad_plain,\"axR\",@progbits",
    ".p2align 6",
    concat!(".skip ", env!("BENCH_PAD_PLAIN")),
    ".text",
);
