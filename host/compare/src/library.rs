//! The library's side of a comparison.

use bursztok::{Challenge, Reading, Refusal, Section};
use second::testing::calls::{Answered, Call, Input, Outputs};

/// Runs a call of the library.
pub fn run(call: Call, input: &Input, out: Outputs) -> Answered {
    let Input {
        set, key, list, a, ..
    } = input;
    let outcome = match call {
        Call::KeyTest => bursztok::key_test(*set, &input.f, &input.g, a),
        Call::Commitment => bursztok::commitment(*set, a, &input.y1, &input.y2, out.rounded),
        Call::CommitmentWithRests => {
            let (rounded, rests) = (out.rounded, out.rests);
            bursztok::commitment_with_rests(*set, a, &input.y1, &input.y2, rounded, rests)
        }
        Call::Rebuild => bursztok::rebuild(*set, a, &input.z1, &input.z2_dagger, list, out.rounded),
        Call::RebuildDefaultOne => {
            let (z1, z2_dagger) = (&input.z1, &input.z2_dagger);
            bursztok::rebuild_default_one(*set, a, z1, z2_dagger, list, out.rounded)
        }
        Call::Compare => bursztok::compare(*set, list, &input.hashed),
        Call::CompareDefaultOne => bursztok::compare_default_one(*set, list, &input.hashed),
        Call::Write => bursztok::write(*set, *key, &input.z1, &input.z2_dagger, list, out.record),
        Call::WritePacked => {
            let (z1, z2_dagger) = (&input.z1, &input.z2_dagger);
            bursztok::write_packed(*set, *key, z1, z2_dagger, list, out.record)
        }
        Call::Pack => bursztok::pack(&input.record, out.record),
        Call::Unpack => bursztok::unpack(&input.packed, out.record),
        Call::Respond => {
            let challenge = Challenge {
                f: &input.f,
                g: &input.g,
                a,
                y1: &input.y1,
                y2: &input.y2,
                list,
                sign: input.sign,
                thresholds: &input.thresholds,
                words: &input.words,
            };
            let response = bursztok::respond(*set, *key, challenge, out.z1, out.z2_dagger);
            return Answered {
                words: response.words,
                key: response.key,
                ..answered(response.outcome)
            };
        }
        Call::Read => {
            let (z1, z2_dagger, list) = (out.z1, out.z2_dagger, out.list);
            return reading(bursztok::read(&input.record, z1, z2_dagger, list));
        }
        Call::ReadPacked => {
            let (z1, z2_dagger, list) = (out.z1, out.z2_dagger, out.list);
            return reading(bursztok::read_packed(&input.packed, z1, z2_dagger, list));
        }
        Call::Z1Section => return section(&input.record, bursztok::z1_section),
        Call::Z2Section => return section(&input.record, bursztok::z2_section),
        Call::ListSection => return section(&input.record, bursztok::list_section),
        Call::Kappa => return Answered::of_size(bursztok::kappa(*set)),
        Call::RecordBytes => return Answered::of_size(bursztok::record_bytes(*set)),
        Call::PackedBytes => return Answered::of_size(bursztok::packed_bytes(*set)),
    };
    answered(outcome)
}

fn answered(outcome: Result<(), Refusal>) -> Answered {
    match outcome {
        Ok(()) => Answered::new((0, 0)),
        Err(refusal) => Answered::new((refusal.number(), refusal.place())),
    }
}

fn reading(reading: Reading) -> Answered {
    Answered {
        set: reading.set,
        key: reading.key,
        ..answered(reading.outcome)
    }
}

fn section(record: &[u8], call: fn(&[u8]) -> Section) -> Answered {
    let section = call(record);
    answered(section.outcome).with_part(record, section.part)
}
