//! What is compared with the model of `image.rs`: the operations on a lent image.

use crate::model::Event;

pub trait Images {
    /// OPEN's number, or 80.
    fn open(&self, image: &mut [u8], n: u8, rule: u8) -> u8;
    /// The events: 80, 81, 42, then the event's number.
    fn claim(&self, image: &mut [u8], s: u8, v: u32) -> u8;
    fn deliver(&self, image: &mut [u8], t: u8, s: u8) -> u8;
    fn step(&self, image: &mut [u8], s: u8) -> u8;
    fn lose(&self, image: &mut [u8], s: u8) -> u8;
    fn answer(&self, image: &mut [u8], b: u8, a: u8) -> u8;
    /// LOOK's number, decided, votes, 0 and the claim, in eight bytes, highest first.
    fn look(&self, image: &[u8], s: u8) -> u64;
    /// The number times 65,536, and the bytes written.
    fn look_all(&self, image: &[u8], out: &mut [u8]) -> u32;
    /// A look at a ballot: the number times 65,536, and the bytes written.
    fn look_ballot(&self, image: &[u8], b: u8, out: &mut [u8]) -> u32;
    /// The text's length, 0 where the buffer is too small.
    fn image_report(&self, image: &[u8], events: usize, taken: usize, status: u8, out: &mut [u8]) -> usize;
    /// RUN's status, or 80.
    fn play(&self, log: &[u8], limit: usize, image: &mut [u8]) -> u8;

    fn event(&self, image: &mut [u8], event: Event) -> u8 {
        match event {
            Event::Claim { s, v } => self.claim(image, s, v),
            Event::Deliver { t, s } => self.deliver(image, t, s),
            Event::Step { s } => self.step(image, s),
            Event::Lose { s } => self.lose(image, s),
            Event::Answer { b, a } => self.answer(image, b, a),
        }
    }
}
