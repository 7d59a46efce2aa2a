//! Reading, labels and writing against a reading of the requirements: answers, every lent byte, and no other byte.
use super::sheets;
use crate::guarded::{Against, Guarded};
use crate::random::Random;
use crate::raw_sheet::Sheet;
use crate::reference::{reading, writing};
use crate::{ffi, label, label_of, read, Job, Reading, LONGEST_SHEET, MOST_JOBS};

/// The checks that writing makes.
pub const WRITING: [u32; 7] = [2, 3, 19, 5, 6, 7, 10];

/// The checks that reading makes.
pub const READING: [u32; 8] = [1, 2, 3, 19, 4, 5, 6, 7];

/// Lent memory between guard pages, and how often each number was answered.
pub struct Sheets {
    random: Random,
    sheet: Guarded,
    jobs: Guarded,
    labels: Guarded,
    answers: [usize; 20],
}

/// What the reference says of a job's record.
fn in_reference(job: &Job) -> reading::Job {
    reading::Job {
        label_length: job.label_len.into(),
        modules: job.modules.into(),
        minutes: job.minutes.into(),
        earlier: (0..32).filter(|i| job.earlier & 1 << i != 0).collect(),
        departure: job.departure.into(),
        arrival: job.arrival.into(),
    }
}

impl Sheets {
    pub fn new(seed: u64) -> Sheets {
        Sheets {
            random: Random::new(seed),
            sheet: Guarded::new(2048),
            jobs: Guarded::new(1024),
            labels: Guarded::new(1024),
            answers: [0; 20],
        }
    }

    fn noise(&mut self, length: usize) -> Vec<u8> {
        let mut bytes = vec![0; length];
        self.random.fill(&mut bytes);
        bytes
    }

    /// Reads the sheet, and asks for the label of every job, of the one past the last, and of some far from it.
    fn compare_reading(&mut self, sheet: &[u8]) {
        let expected = reading::read(sheet);
        self.answers[*expected.as_ref().err().unwrap_or(&0) as usize] += 1;
        let n = expected.as_ref().map_or(0, |sheet| sheet.jobs.len());
        for against in [Against::End, Against::Front] {
            let lent = self.sheet.lend(against, sheet);
            // SAFETY: live memory of so many bytes.
            let answer = unsafe { ffi::depot_read(lent.as_ptr(), lent.len()) };
            assert_eq!(answer.refusal, expected.as_ref().err().copied().unwrap_or(0), "sheet {sheet:02x?}");
            assert_eq!(answer.count, n, "sheet {sheet:02x?}");
            assert_eq!(usize::from(answer.modules), expected.as_ref().map_or(0, |sheet| sheet.modules), "sheet {sheet:02x?}");
            assert_eq!(u32::from(answer.changeover), expected.as_ref().map_or(0, |sheet| sheet.changeover), "sheet {sheet:02x?}");
            let jobs: Vec<reading::Job> = answer.jobs[..n].iter().map(in_reference).collect();
            assert_eq!(jobs, expected.as_ref().map_or(&[][..], |sheet| &sheet.jobs), "sheet {sheet:02x?}");
            assert!(answer.jobs[n..].iter().all(|job| *job == Job::default()), "sheet {sheet:02x?}");
            for job in (0..=n).chain([MOST_JOBS, u32::MAX as usize, usize::MAX]) {
                self.compare_label(sheet, &answer, job);
            }
            assert_eq!(self.sheet.left(), sheet);
            assert!(self.sheet.rest_untouched());
        }
    }

    /// Asks for a label of the sheet that is lent, and from what reading it answered.
    fn compare_label(&mut self, sheet: &[u8], read: &ffi::Reading, job: usize) {
        let lent = self.sheet.left();
        // SAFETY: live memory of so many bytes.
        let place = unsafe { ffi::depot_label(lent.as_ptr(), lent.len(), job) };
        let about = || format!("job {job} of sheet {sheet:02x?}");
        // SAFETY: the call is lent nothing.
        assert_eq!(unsafe { ffi::depot_label_of(*read, job) }, place, "{}", about());
        match reading::label(sheet, job) {
            Ok(range) => {
                assert_eq!(place, ffi::LabelPlace { refusal: 0, offset: range.start, length: range.len() }, "{}", about());
                let shown = label(lent, job).unwrap();
                assert_eq!(shown.as_ptr(), lent[range.clone()].as_ptr(), "{}", about());
                assert_eq!(shown, &sheet[range], "{}", about());
            }
            Err(number) => {
                self.answers[14] += usize::from(number == 14);
                assert_eq!(place, ffi::LabelPlace { refusal: number, offset: 0, length: 0 }, "{}", about());
            }
        }
    }

    /// Writes the sheet of these parts into `room` bytes.
    fn compare_writing(&mut self, sheet: &Sheet, room: usize) {
        let Sheet { jobs, labels, modules, changeover, .. } = sheet;
        let (modules, changeover) = (*modules, *changeover);
        let expected = writing::write(jobs, labels, modules, changeover, room);
        let number = *expected.as_ref().err().unwrap_or(&0);
        self.answers[number as usize] += 1;
        for against in [Against::End, Against::Front] {
            let before = self.noise(room);
            let records: Vec<u8> = jobs.iter().flat_map(as_lent).collect();
            let lent_jobs = self.jobs.lend(against, &records).as_ptr();
            let lent_labels = self.labels.lend(against, labels);
            let out = self.sheet.lend(against, &before);
            // SAFETY: live memory of as many records and bytes, of which none overlaps another.
            let answer = unsafe {
                let (labels, out) = (lent_labels.as_ptr(), out.as_mut_ptr());
                ffi::depot_write(lent_jobs.cast(), jobs.len(), labels, lent_labels.len(), modules, changeover, out, room)
            };
            let about = || format!("{sheet:02x?}, room {room}, {against:?}");
            let written = expected.as_deref().unwrap_or(&[]);
            assert_eq!(answer, ffi::Written { refusal: number, length: written.len() }, "{}", about());
            let left = self.sheet.left();
            assert_eq!(left[..written.len()], *written, "{}", about());
            assert_eq!(left[written.len()..], before[written.len()..], "{}", about());
            assert_eq!((self.jobs.left(), self.labels.left()), (&records[..], &labels[..]), "{}", about());
            for lent in [&self.sheet, &self.jobs, &self.labels] {
                assert!(lent.rest_untouched(), "{}", about());
            }
        }
        if let Ok(sheet) = expected {
            let reading = read(&sheet).expect("what was written reads");
            assert_eq!(reading, Reading { jobs: jobs.to_vec(), modules, changeover });
            let shown: Vec<u8> = (0..jobs.len()).flat_map(|job| label_of(&sheet, &reading, job).unwrap()).copied().collect();
            assert_eq!(shown, *labels);
        }
    }

    /// Sheets that read, of 0 to 20 jobs.
    pub fn good_reading(&mut self, times: usize) {
        for i in 0..times {
            let sheet = sheets::of_size(&mut self.random, i % (MOST_JOBS + 1));
            self.compare_reading(&sheet.bytes());
        }
    }

    /// Sheets with a fault for one of the checks of reading, some with another one.
    pub fn damaged_reading(&mut self, check: u32, times: usize) {
        for _ in 0..times {
            let n = 1 + self.random.place(MOST_JOBS);
            let sheet = sheets::of_size(&mut self.random, n);
            let other = if self.random.percent(40) { self.random.pick(&READING) } else { check };
            let bytes = sheets::damaged(&mut self.random, sheet, &[check, other]);
            self.compare_reading(&bytes);
        }
    }

    /// Sheets with some bytes changed, no matter which.
    pub fn scrambled_reading(&mut self, times: usize) {
        for _ in 0..times {
            let sheet = sheets::good(&mut self.random);
            let bytes = sheets::scrambled(&mut self.random, sheet.bytes());
            self.compare_reading(&bytes);
        }
    }

    /// Any bytes of this length.
    pub fn noisy_reading(&mut self, length: usize) {
        let bytes = self.noise(length);
        self.compare_reading(&bytes);
    }

    /// Lists of 0 to 20 jobs that can be written.
    pub fn good_writing(&mut self, times: usize) {
        for i in 0..times {
            let sheet = sheets::of_size(&mut self.random, i % (MOST_JOBS + 1));
            let room = sheet.bytes().len() + self.random.pick(&[0, 0, 1, 100, LONGEST_SHEET]);
            self.compare_writing(&sheet, room);
        }
    }

    /// Lists with a fault for one of the checks of writing, some with another one.
    pub fn damaged_writing(&mut self, check: u32, times: usize) {
        for _ in 0..times {
            let n = 1 + self.random.place(MOST_JOBS);
            let mut sheet = sheets::of_size(&mut self.random, n);
            let mut room = 700;
            let mut checks = vec![check];
            if self.random.percent(40) {
                checks.push(self.random.pick(&WRITING));
            }
            for check in checks {
                match check {
                    2 => {
                        let more = self.random.pick(&[21, 22, 40, 85]);
                        sheet.jobs = sheet.jobs.iter().cycle().take(more).copied().collect();
                    }
                    10 => room = self.random.place(sheet.bytes().len()),
                    _ => sheets::put_fault(&mut self.random, &mut sheet, check),
                }
            }
            self.compare_writing(&sheet, room);
        }
    }

    /// How often each of these numbers was answered; no other was.
    pub fn times(&self, numbers: &[usize]) -> Vec<usize> {
        let times: Vec<usize> = numbers.iter().map(|number| self.answers[*number]).collect();
        assert_eq!(times.iter().sum::<usize>(), self.answers.iter().sum());
        times
    }
}

/// A job record as C has it in memory, without a gap.
fn as_lent(job: &Job) -> Vec<u8> {
    let mut bytes = vec![job.label_len, job.modules];
    bytes.extend(job.minutes.to_le_bytes());
    bytes.extend(job.earlier.to_le_bytes());
    bytes.extend(job.departure.to_le_bytes());
    bytes.extend(job.arrival.to_le_bytes());
    assert_eq!(bytes.len(), size_of::<Job>());
    bytes
}
