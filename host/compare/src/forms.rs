//! Comparisons of records in both forms.

use crate::buffers::Left;
use crate::cases::Found;
use second::form::{turn_bit, Section, FIELDS, HEADER};
use second::parameters::N;
use second::record::Held;
use second::testing::calls::{Call, Input};
use second::{Form, Set};

/// The writer, the reader and the conversion of a form.
fn calls_in(form: Form) -> [Call; 3] {
    match form {
        Form::Plain => [Call::Write, Call::Read, Call::Pack],
        Form::Packed => [Call::WritePacked, Call::ReadPacked, Call::Unpack],
    }
}

/// The set of a right input.
fn set_of(input: &Input) -> Set {
    Set::asked(input.set).expect("a right input")
}

/// A change of a record.
type Change<'a> = &'a dyn Fn(&mut Vec<u8>);

impl Found {
    /// Compares every call that is lent a record, with the record of its form changed.
    pub fn compare_records(&mut self, right: &Input, change: impl Fn(Form, &mut Vec<u8>)) {
        for form in Form::ALL {
            self.compare_lent(form, right, |record| change(form, record));
        }
    }

    /// The same of the calls that are lent a record of this form.
    fn compare_lent(&mut self, form: Form, right: &Input, change: impl Fn(&mut Vec<u8>)) {
        let mut input = right.clone();
        change(input.record_in(form));
        for &call in Call::lent(form) {
            self.compare(call, &input);
        }
    }

    /// Each field of the header wrong, alone and with each other one.
    pub fn compare_fields(&mut self, right: &Input) {
        let starts = FIELDS.map(|field| field.start);
        for (index, &field) in starts.iter().enumerate() {
            self.compare_records(right, |_, record| record[field] ^= 0x80);
            for &other in &starts[index + 1..] {
                self.compare_records(right, |_, record| {
                    record[field] ^= 0x80;
                    record[other] ^= 0x80;
                });
            }
        }
    }

    /// Every length of a record up to two past its total.
    pub fn compare_lengths(&mut self, right: &Input) {
        for form in Form::ALL {
            for length in 0..form.total(set_of(right)) + 3 {
                self.compare_lent(form, right, |record| record.resize(length, 0));
            }
        }
    }

    /// A record of the other form: as it is, with the letters of this one, with its whole header, and
    /// then with its length too.
    pub fn compare_other_form(&mut self, mut right: Input) {
        let set = set_of(&right);
        std::mem::swap(&mut right.record, &mut right.packed);
        self.compare_records(&right, |_, _| {});
        self.compare_records(&right, |form, record| {
            record[..4].copy_from_slice(form.letters());
        });
        let header = |form: Form, record: &mut Vec<u8>| {
            record[..HEADER].copy_from_slice(&form.header(set, right.key));
        };
        self.compare_records(&right, header);
        self.compare_records(&right, |form, record| {
            header(form, record);
            record.resize(form.total(set), 0);
        });
    }

    /// 02, C-11: 13 for a spare bit that is set comes after all header fields and before 5, whatever
    /// the output.
    pub fn compare_spare_bits(&mut self, right: &Input) {
        let (form, set) = (Form::Packed, set_of(right));
        let list = form.offset(Section::List);
        let spare = form.spare_bits(set);
        let mut short = right.clone();
        short.lengths.record = 0;
        let changes: [Change; 7] = [
            &|_| {},
            // The first two places are 0.
            &|record| record[list..list + 3].fill(0),
            &|record| record[HEADER..list].fill(0x77),
            &|record| {
                record.pop();
            },
            &|record| record.push(0),
            &|record| record.push(0xff),
            &|record| record.fill(0xff),
        ];
        for change in changes {
            for &place in &spare {
                let spoil = |record: &mut Vec<u8>| {
                    turn_bit(record, place);
                    change(record);
                };
                self.compare_lent(form, right, spoil);
                self.compare_lent(form, &short, spoil);
            }
        }
        for field in FIELDS {
            self.compare_lent(form, right, |record| {
                turn_bit(record, spare[0]);
                record[field.start] ^= 0x80;
            });
        }
        self.compare_lent(form, right, |record| {
            spare.iter().for_each(|&place| turn_bit(record, place));
        });
    }

    /// Records with an entry that has one bit, or all bits but one, at places that start at every bit
    /// of a byte; among zeros and among ones, so that a bit which goes astray shows.
    pub fn compare_entry_bits(&mut self, right: &Input) {
        for (z1, z2_dagger) in [(0, 0), (-1, -1)] {
            let mut held = Held::new(set_of(right), right.key, &[z1; N], &[0; N], &right.list);
            held.z2_dagger[..16].fill(z2_dagger);
            held.z2_dagger[N - 16..].fill(z2_dagger);
            for form in Form::ALL {
                for section in [Section::Z1, Section::Z2Dagger] {
                    self.compare_bits_of(form, section, &held, right);
                }
            }
        }
    }

    fn compare_bits_of(&mut self, form: Form, section: Section, held: &Held, right: &Input) {
        let mut input = right.clone();
        for place in (0..8).chain([N - 1]) {
            let single = (0..form.bits(section)).map(|bit| 1 << bit);
            for entry in single.flat_map(|entry: i64| [entry, !entry]) {
                let mut held = held.clone();
                held.entries_mut(section)[place] = entry;
                *input.record_in(form) = held.record(form);
                self.compare_read(form, &input);
            }
        }
    }

    /// The conversion and the reader of a record, and the writer of what was read.
    fn compare_read(&mut self, form: Form, input: &Input) {
        let [_, reader, conversion] = calls_in(form);
        self.compare(conversion, input);
        let read = self.compare(reader, input);
        if read.number() == 0 {
            self.write_again(form, input, &read);
        }
    }

    /// Outputs for a record from none to some bytes too long.
    pub fn compare_outputs(&mut self, mut right: Input) {
        for form in Form::ALL {
            let total = form.total(set_of(&right));
            let under = [0, 1, HEADER, total / 2].into_iter();
            for length in under.chain(total - 2..total + 9).chain([2 * total]) {
                right.lengths.record = length;
                for call in [calls_in(form)[0], calls_in(form.other())[2]] {
                    self.compare(call, &right);
                }
            }
        }
    }

    /// Demand 2 for the signature of an input: in either form it is written and read back, and the
    /// conversions make one record of the other.
    pub fn both_forms(&mut self, input: &Input) {
        let set = set_of(input);
        let mut next = input.clone();
        for form in Form::ALL {
            let [writer, reader, _] = calls_in(form);
            next.lengths.record = form.total(set);
            let written = self.compare(writer, &next);
            *next.record_in(form) = written.buffers.record().to_vec();
            let read = self.compare(reader, &next);
            let same = read.answered.set == set.number()
                && read.answered.key == next.key
                && read.buffers.z1() == next.z1
                && read.buffers.z2_dagger() == next.z2_dagger
                && read.buffers.list()[..set.kappa()] == next.list;
            if written.number() != 0 || read.number() != 0 || !same {
                self.fail(reader, "a record does not read back as the signature");
            }
        }
        for form in Form::ALL {
            let conversion = calls_in(form)[2];
            next.lengths.record = form.other().total(set);
            let converted = self.compare(conversion, &next);
            let wanted = &next.record_in(form.other())[..];
            if converted.number() != 0 || converted.buffers.record() != wanted {
                self.fail(
                    conversion,
                    "it does not make the record that the writer does",
                );
            }
        }
    }

    /// The same for entries whose bits are all ones, and the last places.
    pub fn both_forms_of_ones(&mut self, mut right: Input) {
        let kappa = set_of(&right).kappa();
        right.z1.fill(-1);
        right.z2_dagger.fill(0);
        right.z2_dagger[..9].fill(-1);
        right.list = (N as u16 - kappa as u16..N as u16).collect();
        self.both_forms(&right);
    }

    /// Demand 2: a record that reads is the one that the writer makes of it.
    pub fn write_again(&mut self, form: Form, input: &Input, read: &Left) {
        let [writer, reader, _] = calls_in(form);
        let Ok(set) = Set::asked(read.answered.set) else {
            return self.fail(reader, format!("it answers set {}", read.answered.set));
        };
        let mut next = input.clone();
        next.set = read.answered.set;
        next.key = read.answered.key;
        next.z1 = read.buffers.z1().to_vec();
        next.z2_dagger = read.buffers.z2_dagger().to_vec();
        next.list = read.buffers.list()[..set.kappa()].to_vec();
        next.lengths.record = form.total(set);
        let written = self.compare(writer, &next);
        let wanted = &next.record_in(form)[..];
        if written.number() != 0 || written.buffers.record() != wanted {
            self.fail(writer, "it does not make the record that was read");
        }
    }

    /// Demand 2: a record that is converted comes back from the other conversion as it was.
    pub fn convert_back(&mut self, form: Form, input: &Input, converted: &Left) {
        let mut next = input.clone();
        let record = next.record_in(form).clone();
        let other = form.other();
        let Some(set) = Set::stated(record[4].into()) else {
            return self.fail(calls_in(form)[2], "it takes a record of no set");
        };
        let there = &converted.buffers.record()[..other.total(set)];
        *next.record_in(other) = there.to_vec();
        next.lengths.record = record.len();
        let conversion = calls_in(other)[2];
        let back = self.compare(conversion, &next);
        if back.number() != 0 || back.buffers.record() != record {
            self.fail(conversion, "it does not bring the record back");
        }
    }
}
