//! Row 7: each cause, and where the first bad descriptor's header stands.

use reference::segment::{self, Cause, Fault};

const LIST: u16 = 0x0001;
const EXTENSION: u16 = 0xFFEE;

fn segment(descriptors: &[Vec<u8>]) -> Vec<u8> {
    [vec![0; 40], descriptors.concat()].concat()
}

/// A descriptor with as much data and pad as its header says.
fn descriptor(code: u16, pad_length: u8, data_length: u32) -> Vec<u8> {
    let mut bytes = header(code, pad_length, data_length);
    bytes.resize(8 + data_length as usize + usize::from(pad_length), 0);
    bytes
}

fn header(code: u16, pad_length: u8, data_length: u32) -> Vec<u8> {
    let type_bytes = code.to_be_bytes();
    let length = data_length.to_be_bytes();
    // Byte 2 and the high bits of byte 3 are reserved, so nobody looks at them.
    [&type_bytes[..], &[0xFF, 0xF8 | pad_length], &length[..]].concat()
}

fn fault(descriptors: &[Vec<u8>]) -> Option<(Cause, usize)> {
    let Fault { cause, offset } = segment::walk(&segment(descriptors)).err()?;
    Some((cause, offset))
}

#[test]
fn segments_without_a_flaw() {
    assert_eq!(fault(&[]), None);
    assert_eq!(fault(&[descriptor(LIST, 0, 0)]), None);
    assert_eq!(fault(&[descriptor(LIST, 0, 1024)]), None);
    assert_eq!(fault(&[descriptor(EXTENSION, 0, 104)]), None);
    assert_eq!(fault(&[descriptor(EXTENSION, 0, 832)]), None);
    let both = [descriptor(EXTENSION, 0, 208), descriptor(LIST, 0, 16)];
    assert_eq!(fault(&both), None);
}

#[test]
fn unknown_type() {
    let list = descriptor(LIST, 0, 16);
    for code in [0x0002, 0x0100, 0x0101, 0xFFED, 0xFFEF, 0xEEFF] {
        let unknown = descriptor(code, 0, 16);
        assert_eq!(
            fault(std::slice::from_ref(&unknown)),
            Some((Cause::UnknownType, 40))
        );
        let second = fault(&[list.clone(), unknown]);
        assert_eq!(second, Some((Cause::UnknownType, 64)));
    }
}

#[test]
fn data_over_the_supported_length() {
    let over = Some((Cause::DataOverSupportedLength, 40));
    assert_eq!(fault(&[descriptor(LIST, 0, 1040)]), over);
    assert_eq!(fault(&[descriptor(LIST, 0, 1025)]), over);
    assert_eq!(fault(&[descriptor(EXTENSION, 0, 936)]), over);
    assert_eq!(fault(&[descriptor(EXTENSION, 0, 833)]), over);
    assert_eq!(fault(&[header(LIST, 0, u32::MAX)]), over);
    assert_eq!(fault(&[header(EXTENSION, 7, 0xFFFF_FFF9)]), over);
}

#[test]
fn data_and_pad_no_multiple_of_eight() {
    let odd = Some((Cause::DataAndPadNoMultipleOfEight, 40));
    for pad_length in 1..=7 {
        assert_eq!(fault(&[descriptor(LIST, pad_length, 16)]), odd);
        assert_eq!(fault(&[descriptor(EXTENSION, pad_length, 104)]), odd);
    }
    assert_eq!(fault(&[descriptor(LIST, 0, 17)]), odd);
}

#[test]
fn data_that_does_not_fit_its_type() {
    let misfit = Some((Cause::DataDoesNotFitType, 40));
    assert_eq!(fault(&[descriptor(LIST, 0, 8)]), misfit);
    assert_eq!(fault(&[descriptor(LIST, 4, 12)]), misfit);
    assert_eq!(fault(&[descriptor(EXTENSION, 0, 0)]), misfit);
    assert_eq!(fault(&[descriptor(EXTENSION, 0, 96)]), misfit);
    assert_eq!(fault(&[descriptor(EXTENSION, 1, 103)]), misfit);
}

#[test]
fn a_descriptor_that_runs_past_the_segment() {
    let list = descriptor(LIST, 0, 16);
    let mut short = descriptor(EXTENSION, 0, 104);
    short.pop();
    assert_eq!(
        fault(std::slice::from_ref(&short)),
        Some((Cause::RunsPastSegment, 40))
    );
    assert_eq!(fault(&[list, short]), Some((Cause::RunsPastSegment, 64)));
}

#[test]
fn a_repeated_type() {
    let list = descriptor(LIST, 0, 16);
    let extension = descriptor(EXTENSION, 0, 104);
    let again = fault(&[list.clone(), list.clone()]);
    assert_eq!(again, Some((Cause::TypeRepeated, 64)));
    let after_another = fault(&[list.clone(), extension.clone(), list]);
    assert_eq!(after_another, Some((Cause::TypeRepeated, 176)));
    let extensions = fault(&[extension.clone(), extension]);
    assert_eq!(extensions, Some((Cause::TypeRepeated, 152)));
}

#[test]
fn one_to_seven_bytes_that_remain() {
    let list = descriptor(LIST, 0, 16);
    for length in 1..=7 {
        assert_eq!(fault(&[vec![0; length]]), None);
        assert_eq!(fault(&[list.clone(), vec![0; length]]), None);
        for at in 0..length {
            let mut rest = vec![0; length];
            rest[at] = 1;
            let nonzero = fault(std::slice::from_ref(&rest));
            assert_eq!(nonzero, Some((Cause::RemainderNotZero, 40)));
            let nonzero = fault(&[list.clone(), rest]);
            assert_eq!(nonzero, Some((Cause::RemainderNotZero, 64)));
        }
    }
}

#[test]
fn nothing_after_the_end_type_is_examined() {
    let list = descriptor(LIST, 0, 16);
    let end = vec![0, 0, 1, 2, 3, 4, 5, 6];
    assert_eq!(fault(std::slice::from_ref(&end)), None);
    assert_eq!(fault(&[list.clone(), end.clone(), vec![9; 3]]), None);
    assert_eq!(fault(&[list.clone(), end, list, vec![9; 40]]), None);
}
