// Stands for src/compressor.rs: the trait alone; the oracle's host never has a compressor.

pub(crate) trait Compressor {
    fn compress(&mut self, in_buffers: &[&[u8]], in_limit: usize, out: &mut [u8]) -> usize;
    fn decompress(&mut self, in_data: &[u8], out: &mut [u8]) -> usize;
}
