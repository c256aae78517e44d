// Stands for src/c/compress.rs: the range coder, of which the copied files call nothing.
