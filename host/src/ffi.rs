//! The exported calls as C sees them, `include/depot.h`: a slice crosses as its pointer and its length.
use crate::{Desk, Job, JobSlack, Runner, MOST_JOBS};

/// What reading answers: refusal 0 with the jobs, n, N and the changeover, or the number of the refusal with all else 0.
#[repr(C)]
#[derive(Clone, Copy, Debug, PartialEq, Eq)]
pub struct Reading {
    pub refusal: u32,
    pub jobs: [Job; MOST_JOBS],
    pub count: usize,
    pub modules: u16,
    pub changeover: u16,
}

/// Where a label lies: refusal 0 with its offset in the sheet and its length, or the number of the refusal with all else 0.
#[repr(C)]
#[derive(Clone, Copy, Debug, PartialEq, Eq)]
pub struct LabelPlace {
    pub refusal: u32,
    pub offset: usize,
    pub length: usize,
}

/// What writing answers: refusal 0 with the sheet's length, or the number of the refusal with 0.
#[repr(C)]
#[derive(Clone, Copy, Debug, PartialEq, Eq)]
pub struct Written {
    pub refusal: u32,
    pub length: usize,
}

/// What counting the job sets answers: refusal 0 with the number of sets, or the number of the refusal with 0.
#[repr(C)]
#[derive(Clone, Copy, Debug, PartialEq, Eq)]
pub struct SetCount {
    pub refusal: u32,
    pub sets: u32,
}

/// What a look answers: refusal 0 with the largest claim that would be granted now, or the number of the refusal with 0.
#[repr(C)]
#[derive(Clone, Copy, Debug, PartialEq, Eq)]
pub struct Looked {
    pub refusal: u32,
    pub power: u32,
}

/// What the call for the end alone answers: refusal 0 with the minute, or the number of the refusal with 0.
#[repr(C)]
#[derive(Clone, Copy, Debug, PartialEq, Eq)]
pub struct Earliest {
    pub refusal: u32,
    pub end: u16,
}

/// What planning with a limit answers: refusal 0 with the end, the bound and the mark, or the number of the refusal with 0.
#[repr(C)]
#[derive(Clone, Copy, Debug, PartialEq, Eq)]
pub struct Limited {
    pub refusal: u32,
    pub end: u16,
    pub bound: u16,
    pub exact: u32,
}

/// What the call for the least module count answers: refusal 0 with the count, or the number of the refusal with 0.
#[repr(C)]
#[derive(Clone, Copy, Debug, PartialEq, Eq)]
pub struct Sized {
    pub refusal: u32,
    pub modules: u16,
}

/// What the call for the use of the cabinet answers: refusal 0 with the per mille and the remainder, or the number of the refusal with 0.
#[repr(C)]
#[derive(Clone, Copy, Debug, PartialEq, Eq)]
pub struct Usage {
    pub refusal: u32,
    pub per_mille: u32,
    pub remainder: u32,
}

/// What slack answers: refusal 0 with an entry for each job, or the number of the refusal with all else 0.
#[repr(C)]
#[derive(Clone, Copy, Debug, PartialEq, Eq)]
pub struct Slacks {
    pub refusal: u32,
    pub jobs: [JobSlack; MOST_JOBS],
    pub count: usize,
}

/// What a start answers: refusal 0 with the runner, or the number of the refusal with a runner of zeros.
#[repr(C)]
#[derive(Clone, Copy, Debug, PartialEq, Eq)]
pub struct Started {
    pub refusal: u32,
    pub runner: Runner,
}

/// What a step answers: refusal 0 with the desk and the runner as they then are, or the number of the refusal with both as before.
#[repr(C)]
#[derive(Clone, Copy, Debug, PartialEq, Eq)]
pub struct Stepped {
    pub refusal: u32,
    pub desk: Desk,
    pub runner: Runner,
}

extern "C" {
    pub fn depot_version() -> u32;

    pub fn depot_plan(sheet: *const u8, sheet_len: usize, card: *mut u8, card_len: usize, work: *mut u8, work_len: usize) -> u32;

    pub fn depot_plan_within(
        sheet: *const u8,
        sheet_len: usize,
        card: *mut u8,
        card_len: usize,
        work: *mut u8,
        work_len: usize,
        limit: u64,
    ) -> Limited;

    pub fn depot_end(sheet: *const u8, sheet_len: usize, work: *mut u8, work_len: usize) -> Earliest;

    pub fn depot_size(
        sheet: *const u8,
        sheet_len: usize,
        by: u16,
        card: *mut u8,
        card_len: usize,
        work: *mut u8,
        work_len: usize,
    ) -> Sized;

    pub fn depot_use(sheet: *const u8, sheet_len: usize, work: *mut u8, work_len: usize) -> Usage;

    pub fn depot_slack(sheet: *const u8, sheet_len: usize, work: *mut u8, work_len: usize) -> Slacks;

    pub fn depot_sets(sheet: *const u8, sheet_len: usize) -> SetCount;

    pub fn depot_read(sheet: *const u8, sheet_len: usize) -> Reading;

    pub fn depot_label(sheet: *const u8, sheet_len: usize, job: usize) -> LabelPlace;

    pub fn depot_label_of(reading: Reading, job: usize) -> LabelPlace;

    pub fn depot_write(
        jobs: *const Job,
        jobs_len: usize,
        labels: *const u8,
        labels_len: usize,
        modules: u16,
        changeover: u16,
        sheet: *mut u8,
        sheet_len: usize,
    ) -> Written;

    pub fn depot_desk_open(
        desk: *mut Desk,
        limit: u32,
        assured: *const u32,
        assured_len: usize,
        ceilings: *const u32,
        ceilings_len: usize,
    ) -> u32;

    pub fn depot_desk_change(
        desk: *mut Desk,
        limit: u32,
        assured: *const u32,
        assured_len: usize,
        ceilings: *const u32,
        ceilings_len: usize,
    ) -> u32;

    pub fn depot_desk_claim(desk: *mut Desk, controller: u32, power: u32) -> u32;

    pub fn depot_desk_hand_back(desk: *mut Desk, controller: u32, power: u32) -> u32;

    pub fn depot_desk_look(desk: *const Desk, controller: u32) -> Looked;

    pub fn depot_runner_start(
        sheet: *const u8,
        sheet_len: usize,
        card: *const u8,
        card_len: usize,
        desk: Desk,
        controller: u32,
        size: u32,
    ) -> Started;

    pub fn depot_runner_step(runner: Runner, desk: Desk) -> Stepped;
}
