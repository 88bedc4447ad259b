//! The frame program as a function from its input to its output.

use crate::cause::Cause;
use crate::fault::Fault;
use crate::iteration::Problem;
use crate::records::{Code, Reader};
use crate::run::{run, MOST_ITERATIONS};
use crate::Reference;
use interface::Settings;

const SETTINGS_MARK: u32 = 0x4C53;
const FRAME_MARK: u32 = 0x4C46;

impl Reference {
    /// Everything the program prints.
    pub fn frames(self, input: &[u8]) -> String {
        let mut reader = Reader {
            reference: self,
            rest: input,
        };
        let mut output = String::new();
        if let Err(cause) = self.print_frames(&mut reader, &mut output) {
            output.push_str(&refusal(cause));
        }
        output
    }

    fn print_frames(self, reader: &mut Reader, output: &mut String) -> Result<(), Cause> {
        let code = reader.code(self.limit(512), self.limit(1_024))?;
        self.judge(&[(Cause::UnusedBit, !code.uses_every_bit())])?;
        if self.has(Fault::MarkAfterCodeIsNine) && !reader.rest.starts_with(b"LS") {
            return Err(Cause::BytesAfter);
        }
        let settings = settings_record(reader)?;
        let quiet = usize::from(self.has(Fault::HalfMarkEndsQuietly));
        while reader.rest.len() > quiet {
            let costs = self.frame_record(reader, code.bits)?;
            output.push_str(
                &match self.judge(&[(Cause::Cost, costs.contains(&i16::MIN))]) {
                    Ok(()) => self.line(&code, settings, &costs),
                    Err(cause) => refusal(cause),
                },
            );
        }
        Ok(())
    }

    /// The costs of a whole frame, not yet judged.
    fn frame_record(self, reader: &mut Reader, bits: usize) -> Result<Vec<i16>, Cause> {
        reader.mark(FRAME_MARK)?;
        let mut costs = Vec::new();
        for _ in 0..bits {
            costs.push(reader.number(2)? as u16 as i16);
            let cut = reader.rest.len() < 2;
            if self.has(Fault::CostJudgedBeforeCut) && cut && costs.contains(&i16::MIN) {
                return Err(Cause::Cost);
            }
        }
        Ok(costs)
    }

    /// The line of a frame.
    fn line(self, code: &Code, settings: Settings, costs: &[i16]) -> String {
        let problem = Problem::new(self, self.split_code(code), settings, costs);
        let end = run(&problem, &mut |_, _| ());
        let reading = self.reading(code, &end.last.values);
        let (letter, last) = match reading.number {
            0 => ('W', reading.bits.iter().map(u8::to_string).collect()),
            16 => ('U', reading.place.to_string()),
            _ => ('N', reading.place.to_string()),
        };
        format!("{letter} {} {} {last}\n", end.k, u32::from(end.settled))
    }
}

fn refusal(cause: Cause) -> String {
    format!("R {}\n", cause as u32)
}

/// The settings record: each field is judged before the next is read.
fn settings_record(reader: &mut Reader) -> Result<Settings, Cause> {
    reader.mark(SETTINGS_MARK)?;
    Ok(Settings {
        weight: reader.number_within(2, (1, 65_535), Cause::Setting)? as u32,
        ratio: reader.number_within(2, (0, 1_023), Cause::Setting)? as u32,
        limit: reader.number_within(2, (1, MOST_ITERATIONS), Cause::Setting)? as u32,
        tolerance: reader.number(4)?,
    })
}
