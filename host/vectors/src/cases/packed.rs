//! 02, C-11: the packed record, and the conversions between the two forms.

use super::{with_lengths, Recording};
use crate::slots::{LIST, RECORD, Z1, Z2_DAGGER};
use second::form::{turn_bit, Section, HEADER};
use second::parameters::N;
use second::record::Held;
use second::testing::boundary::largest_z2_dagger;
use second::testing::calls::Call;
use second::testing::sheet::Signature;
use second::{Edition, Form, Set};

impl Recording<'_> {
    /// The sheet that is loaded, written, read and converted in both forms; the refusals of what
    /// takes or writes a packed record.
    pub(super) fn both_forms(&mut self, signature: &Signature) {
        let right = self.held(signature);
        // Refusals alike for all kappa stand once.
        let in_full = self.set.like() == self.set;
        self.call(Call::WritePacked);
        if in_full {
            self.writer_refusals(Call::WritePacked, signature);
            self.wide_entries(signature);
        } else {
            self.output_rooms(Call::WritePacked);
        }
        for (form, calls) in [
            (Form::Plain, &[Call::Pack][..]),
            (Form::Packed, &[Call::Unpack, Call::ReadPacked]),
        ] {
            let record = right.record(form);
            self.recorder.load(RECORD, &record);
            for &call in calls.iter().chain(Call::lent(form.other())) {
                self.call(call);
            }
            self.output_rooms(calls[0]);
            self.refused(&spare_bits_set(form, self.set, &record), calls);
            if in_full {
                self.refused(&wrong_headers(&record), calls);
                self.refused(&wrong_lists(form, &right), calls);
                self.refused(&wrong_entries(form, &right), calls);
                self.refused(&[wrong_sum(form, &right)], calls);
            }
        }
        if in_full {
            self.recorder.load(RECORD, &right.record(Form::Packed));
            self.reader_lengths(Call::ReadPacked);
        }
    }

    /// Calls on records that they refuse; on the last one the conversion, which is the first call,
    /// also has an output that is too short.
    fn refused(&mut self, records: &[Vec<u8>], calls: &[Call]) {
        for record in records {
            self.recorder.load(RECORD, record);
            for &call in calls {
                self.call(call);
            }
        }
        if !records.is_empty() {
            let short = with_lengths(self.asked_of(calls[0]), |lengths| lengths.record = 0);
            self.recorder.call(calls[0], short);
        }
    }

    /// Entries that thirteen and four bits hold and no limit allows, and entries that the packed form
    /// would cut to the right ones.
    fn wide_entries(&mut self, signature: &Signature) {
        let asked = self.asked_of(Call::WritePacked);
        for (place, value) in [(0, 4095), (511, -4096), (9, signature.z1[9] + 8192)] {
            self.recorder.patched(Z1, place, value, |recorder| {
                recorder.call(Call::WritePacked, asked);
            });
        }
        for (place, value) in [(0, 7), (511, -8), (9, signature.z2_dagger[9] + 16)] {
            self.recorder.patched(Z2_DAGGER, place, value, |recorder| {
                recorder.call(Call::WritePacked, asked);
            });
        }
        let last = signature.list.len() - 1;
        let past = signature.list[last] + 512;
        self.recorder.patched(LIST, last, past, |recorder| {
            recorder.call(Call::WritePacked, asked);
        });
    }
}

/// A spare bit set with a header field that goes before it, and with a wrong list; then each one alone.
fn spare_bits_set(form: Form, set: Set, right: &[u8]) -> Vec<Vec<u8>> {
    let with = |place: usize, change: fn(&mut Vec<u8>)| {
        let mut record = right.to_vec();
        turn_bit(&mut record, place);
        change(&mut record);
        record
    };
    let spare = form.spare_bits(set);
    let changes: [fn(&mut Vec<u8>); 3] = [
        |record| record[16] ^= 1,
        |record| record.push(0),
        // A whole place becomes 0.
        |record| record[1120..1123].fill(0),
    ];
    let first = spare.iter().take(1);
    let changed = first.flat_map(|&place| changes.map(|change| with(place, change)));
    let alone = spare.iter().map(|&place| with(place, |_| {}));
    changed.chain(alone).collect()
}

/// Each field of the header wrong that can be, no set and none above, and other lengths.
fn wrong_headers(right: &[u8]) -> Vec<Vec<u8>> {
    let with = |at: usize, byte: u8| {
        let mut record = right.to_vec();
        record[at] = byte;
        record
    };
    let fields = Edition::THIS.fields();
    let mut records: Vec<Vec<u8>> = fields
        .map(|field| with(field.start, right[field.start] ^ 1))
        .collect();
    records.extend([0, Set::ABOVE as u8].map(|set| with(4, set)));
    let lengths = [0, 4, HEADER - 1, HEADER, right.len() - 1];
    records.extend(lengths.map(|length| right[..length].to_vec()));
    records.push([right, &[0]].concat());
    records
}

/// Records with what they hold changed, each in another way.
fn changed(form: Form, right: &Held, changes: &[&dyn Fn(&mut Held)]) -> Vec<Vec<u8>> {
    let changes = changes.iter().map(|change| {
        let mut held = right.clone();
        change(&mut held);
        held.record(form)
    });
    changes.collect()
}

/// Lists that do not rise. In the plain form the last has a place that nine bits would cut to the
/// right one.
fn wrong_lists(form: Form, right: &Held) -> Vec<Vec<u8>> {
    let last = right.set.kappa() - 1;
    let changes: [&dyn Fn(&mut Held); 3] = [
        &|held| held.list[0] = held.list[1],
        &|held| (held.list[0], held.z1[0]) = (held.list[1], -4096),
        &|held| match form {
            Form::Plain => held.list[last] += 512,
            Form::Packed => held.list[last] = held.list[last - 1],
        },
    ];
    changed(form, right, &changes)
}

/// Entries beyond largest, at the ends of what thirteen and four bits hold and next to the limit; and
/// in the plain form some that these bits would cut to the right ones.
fn wrong_entries(form: Form, right: &Held) -> Vec<Vec<u8>> {
    let (largest, most) = (right.set.largest(), largest_z2_dagger(right.set));
    let with = |section: Section, place: usize, entry: i64| {
        let change = |held: &mut Held| held.entries_mut(section)[place] = entry;
        changed(form, right, &[&change])
    };
    let mut records = Vec::new();
    for (first, last) in [(4095, -4096), (-largest - 1, largest + 1)] {
        records.extend(with(Section::Z1, 0, first));
        records.extend(with(Section::Z1, 511, last));
    }
    for (first, last) in [(7, -8), (-most - 1, most + 1)] {
        records.extend(with(Section::Z2Dagger, 0, first));
        records.extend(with(Section::Z2Dagger, 511, last));
    }
    if form == Form::Plain {
        records.extend(with(Section::Z1, 9, right.z1[9] + 8192));
        records.extend(with(Section::Z2Dagger, 9, right.z2_dagger[9] + 16));
    }
    let both = |held: &mut Held| (held.z1[511], held.z2_dagger[0]) = (4095, 7);
    records.extend(changed(form, right, &[&both]));
    records
}

/// A sum past B2 squared of entries at largest.
fn wrong_sum(form: Form, right: &Held) -> Vec<u8> {
    let (largest, limit) = (right.set.largest(), right.set.b2_squared());
    let enough = (limit / (largest * largest)) as usize + 1;
    let mut held = right.clone();
    held.z1[N - enough..].fill(-largest);
    held.record(form)
}
