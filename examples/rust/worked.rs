//! The worked trace of docs/SCOPE.md through the library: its misses, the ratios of one cache, a flush and
//! the trace again, a strip, and a refusal.

/// The static library, as include/kkaeduron.h declares it: a slice is a pointer and then its length, and what has a
/// fixed size is a reference.
mod kkaeduron {
    #[rustfmt::skip]
    extern "C" {
        fn kkaeduron_open(
            bmin: u32, bmax: u32, smax: u32, ways: u32, room: u32, refs: u32,
            state: &mut [u32; STATE_NUMBERS], stacks: *mut u32, stacks_length: usize, counts: *mut u32, counts_length: usize,
        ) -> u32;
        fn kkaeduron_take(
            state: &mut [u32; STATE_NUMBERS], stacks: *mut u32, stacks_length: usize, counts: *mut u32, counts_length: usize,
            address: u32,
        ) -> u32;
        fn kkaeduron_flush(state: &mut [u32; STATE_NUMBERS], stacks: *mut u32, stacks_length: usize) -> u32;
        fn kkaeduron_misses(
            state: &[u32; STATE_NUMBERS], counts: *const u32, counts_length: usize, b: u32, s: u32, w: u32, misses: &mut u32,
        ) -> u32;
        fn kkaeduron_ratios(
            state: &[u32; STATE_NUMBERS], counts: *const u32, counts_length: usize, b: u32, s: u32, w: u32,
            ratios: &mut [f64; 2],
        ) -> u32;
        fn kkaeduron_strip(
            list: *const u32, list_length: usize, b: u32, s: u32, filter: *mut u32, filter_length: usize,
            out: *mut u32, out_length: usize, kept: &mut usize,
        ) -> u32;
    }

    const STATE_NUMBERS: usize = 15;

    /// An opened order with its two tables. Each method answers a refusal's number as the error.
    pub struct Opened {
        state: [u32; STATE_NUMBERS],
        stacks: Vec<u32>,
        counts: Vec<u32>,
    }

    fn done<T>(answer: u32, value: T) -> Result<T, u32> {
        if answer == 0 {
            Ok(value)
        } else {
            Err(answer)
        }
    }

    impl Opened {
        pub fn open(
            bmin: u32,
            bmax: u32,
            smax: u32,
            ways: u32,
            room: u32,
            refs: u32,
        ) -> Result<Opened, u32> {
            let sizes = bmax.wrapping_sub(bmin).min(7) as usize + 1;
            let stacks = vec![0; sizes * room.min(1 << 20) as usize];
            let counts = vec![0; sizes * (smax.min(14) as usize + 1) * ways.min(16) as usize];
            let mut opened = Opened {
                state: [0; STATE_NUMBERS],
                stacks,
                counts,
            };
            let (state, stacks, counts) =
                (&mut opened.state, &mut opened.stacks, &mut opened.counts);
            let answer = unsafe {
                kkaeduron_open(
                    bmin,
                    bmax,
                    smax,
                    ways,
                    room,
                    refs,
                    state,
                    stacks.as_mut_ptr(),
                    stacks.len(),
                    counts.as_mut_ptr(),
                    counts.len(),
                )
            };
            done(answer, opened)
        }

        pub fn take(&mut self, address: u32) -> Result<(), u32> {
            let (state, stacks, counts) = (&mut self.state, &mut self.stacks, &mut self.counts);
            let answer = unsafe {
                kkaeduron_take(
                    state,
                    stacks.as_mut_ptr(),
                    stacks.len(),
                    counts.as_mut_ptr(),
                    counts.len(),
                    address,
                )
            };
            done(answer, ())
        }

        pub fn flush(&mut self) -> Result<(), u32> {
            let (state, stacks) = (&mut self.state, &mut self.stacks);
            let answer = unsafe { kkaeduron_flush(state, stacks.as_mut_ptr(), stacks.len()) };
            done(answer, ())
        }

        pub fn taken(&self) -> u32 {
            self.state[6]
        }

        pub fn misses(&self, b: u32, s: u32, w: u32) -> Result<u32, u32> {
            let mut misses = 0;
            let (state, counts) = (&self.state, &self.counts);
            let answer = unsafe {
                kkaeduron_misses(state, counts.as_ptr(), counts.len(), b, s, w, &mut misses)
            };
            done(answer, misses)
        }

        /// The miss ratio and the traffic ratio.
        pub fn ratios(&self, b: u32, s: u32, w: u32) -> Result<[f64; 2], u32> {
            let mut ratios = [0.0; 2];
            let (state, counts) = (&self.state, &self.counts);
            let answer = unsafe {
                kkaeduron_ratios(state, counts.as_ptr(), counts.len(), b, s, w, &mut ratios)
            };
            done(answer, ratios)
        }
    }

    /// The addresses that are kept.
    pub fn strip(list: &[u32], b: u32, s: u32) -> Result<Vec<u32>, u32> {
        let mut filter = vec![0; 1 << s.min(14)];
        let mut out = vec![0; list.len()];
        let mut kept = 0;
        let answer = unsafe {
            kkaeduron_strip(
                list.as_ptr(),
                list.len(),
                b,
                s,
                filter.as_mut_ptr(),
                filter.len(),
                out.as_mut_ptr(),
                out.len(),
                &mut kept,
            )
        };
        out.truncate(kept);
        done(answer, out)
    }
}

fn take_all(opened: &mut kkaeduron::Opened, trace: &[u32]) -> Result<(), u32> {
    for &address in trace {
        opened.take(address)?;
    }
    println!("refs={}", opened.taken());
    Ok(())
}

fn main() -> Result<(), u32> {
    let trace = [0x0, 0x10, 0x20, 0x0, 0x14, 0x40, 0x0, 0x20];
    let mut opened = kkaeduron::Opened::open(4, 4, 1, 2, 8, 100)?;
    take_all(&mut opened, &trace)?;
    for s in 0..=1 {
        for w in 1..=2 {
            println!("b=4 s={s} w={w} misses={}", opened.misses(4, s, w)?);
        }
    }
    let [miss, traffic] = opened.ratios(4, 1, 2)?;
    println!("b=4 s=1 w=2 miss ratio {miss:.3} traffic ratio {traffic:.1}");
    opened.flush()?;
    println!("flush");
    take_all(&mut opened, &trace)?;
    println!("b=4 s=1 w=2 misses={}", opened.misses(4, 1, 2)?); // every set was empty again: twice the 5 misses
    let kept: Vec<String> = kkaeduron::strip(&trace, 4, 2)?
        .iter()
        .map(|address| format!("{address:x}"))
        .collect();
    println!("strip b=4 s=2 keeps {}", kept.join(" "));
    if let Err(answer) = opened.misses(5, 0, 1) {
        println!("misses: refused with {answer}"); // the order has no blocks of 2^5 bytes
    }
    Ok(())
}
