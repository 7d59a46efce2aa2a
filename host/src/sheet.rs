//! Job sheets: reading, labels, writing.
use crate::{ffi, Refusal, MOST_JOBS};

/// A job, in the widths of its record.
#[repr(C)]
#[derive(Clone, Copy, Debug, Default, PartialEq, Eq)]
pub struct Job {
    /// How many bytes its label has, 1 to 16.
    pub label_len: u8,
    /// The modules that it needs, 1 to 255.
    pub modules: u8,
    /// The minutes that it takes, 1 to 1440.
    pub minutes: u16,
    /// The jobs that must have ended first, bit i for job i.
    pub earlier: u32,
    /// The minute of its departure, counted from the plan's start, 0 to 2880.
    pub departure: u16,
    /// The minute of its arrival, before which it does not start, 0 to 1440.
    pub arrival: u16,
}

/// What a sheet says: its jobs in order, the modules in the cabinet, and the minutes that a module rests between two jobs.
#[derive(Clone, Debug, PartialEq, Eq)]
pub struct Reading {
    pub jobs: Vec<Job>,
    pub modules: u16,
    pub changeover: u16,
}

impl Reading {
    /// As the library answers it.
    fn as_answered(&self) -> ffi::Reading {
        let mut jobs = [Job::default(); MOST_JOBS];
        jobs.iter_mut().zip(&self.jobs).for_each(|(place, job)| *place = *job);
        ffi::Reading { refusal: 0, jobs, count: self.jobs.len(), modules: self.modules, changeover: self.changeover }
    }
}

/// Reads a job sheet.
pub fn read(sheet: &[u8]) -> Result<Reading, Refusal> {
    // SAFETY: a live slice; the library keeps no pointer.
    let answer = unsafe { ffi::depot_read(sheet.as_ptr(), sheet.len()) };
    Refusal::or_done(answer.refusal)?;
    Ok(Reading { jobs: answer.jobs[..answer.count].to_vec(), modules: answer.modules, changeover: answer.changeover })
}

/// The label of a job: that very part of the sheet.
pub fn label(sheet: &[u8], job: usize) -> Result<&[u8], Refusal> {
    // SAFETY: a live slice; the library keeps no pointer.
    let place = unsafe { ffi::depot_label(sheet.as_ptr(), sheet.len(), job) };
    Refusal::or_done(place.refusal)?;
    Ok(&sheet[place.offset..place.offset + place.length])
}

/// The label of a job of the sheet that was read, which is not read again.
///
/// For the reading of this very sheet it is what [`label`] gives. A place that a reading of another sheet gives may be none of this one:
/// there is no such label then.
pub fn label_of<'a>(sheet: &'a [u8], reading: &Reading, job: usize) -> Result<&'a [u8], Refusal> {
    // SAFETY: the call is lent nothing.
    let place = unsafe { ffi::depot_label_of(reading.as_answered(), job) };
    Refusal::or_done(place.refusal)?;
    sheet.get(place.offset..place.offset + place.length).ok_or(Refusal::NoSuchNumber)
}

/// Writes the sheet of these jobs, of their labels run together and of a cabinet of so many modules with this changeover, and gives its
/// length.
///
/// The sheet is written to the front of `sheet`; the bytes behind it stay. A refused call writes no byte.
pub fn write(jobs: &[Job], labels: &[u8], modules: u16, changeover: u16, sheet: &mut [u8]) -> Result<usize, Refusal> {
    // SAFETY: three live slices, of which the one that is written overlaps no other; the library keeps no pointer.
    let answer = unsafe {
        ffi::depot_write(
            jobs.as_ptr(),
            jobs.len(),
            labels.as_ptr(),
            labels.len(),
            modules,
            changeover,
            sheet.as_mut_ptr(),
            sheet.len(),
        )
    };
    Refusal::or_done(answer.refusal).map(|()| answer.length)
}
