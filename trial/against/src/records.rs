//! Step records as the library lends and borrows them, and the model's steps as records.

use trial::steps::{Step, TEST};

/// A step record, with C's layout on both sides.
#[repr(C)]
#[derive(Clone, Copy, Debug, PartialEq, Eq)]
pub struct StepRecord {
    pub op: u8,
    pub test: u8,
    pub target: usize,
    pub smark: u8,
    pub subj: u16,
    pub pmark: u8,
    pub pred: u16,
    pub omark: u8,
    pub obj: u16,
    pub amark: u8,
    pub ann: u64,
}

/// Records that no compiling writes, another at each index.
pub fn marked(room: usize) -> Vec<StepRecord> {
    let record = |at| record([200, 201, at, 202, 60_001, 203, 60_002, 204, 60_003, 205, at]);
    (0..room as u64).map(record).collect()
}

/// A record of its eleven fields: what a step does, a test's mark, a target, then mark and value
/// of subject, predicate, object and annotation.
pub fn record(fields: [u64; 11]) -> StepRecord {
    let [op, test, target, smark, subj, pmark, pred, omark, obj, amark, ann] = fields;
    StepRecord {
        op: op as u8,
        test: test as u8,
        target: target as usize,
        smark: smark as u8,
        subj: subj as u16,
        pmark: pmark as u8,
        pred: pred as u16,
        omark: omark as u8,
        obj: obj as u16,
        amark: amark as u8,
        ann,
    }
}

/// A step of the model as the library lays it out: a test's slots stand as subject and object, the
/// variable of a test on an annotation as subject, its constant as annotation. What a step does not
/// use goes over as it is.
pub fn record_of(step: &Step) -> StepRecord {
    let plain = StepRecord {
        op: step.kind,
        test: step.test,
        target: step.target.into(),
        smark: step.subj.mark,
        subj: step.subj.value,
        pmark: step.pred.mark,
        pred: step.pred.value,
        omark: step.obj.mark,
        obj: step.obj.value,
        amark: step.ann.mark,
        ann: step.ann.value,
    };
    let (left, right) = (step.left, step.right);
    match (step.kind, step.test) {
        (TEST, 2) => StepRecord { subj: step.var, ann: step.least, ..plain },
        (TEST, _) => StepRecord {
            smark: left.mark,
            subj: left.value,
            omark: right.mark,
            obj: right.value,
            ..plain
        },
        _ => plain,
    }
}
