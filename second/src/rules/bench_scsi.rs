//! The bench's calls of request 2026-03. "One kept page serves both kinds."

use super::answer::Answer;
use super::bench::{rows_text, Bench, FILLING};
use super::convert;
use super::device::Device;
use super::script::{Scsi, ToAta, ToScsi};
use super::scsi::{self, ScsiRequest};

impl Bench {
    /// "The answer line as of `command`".
    pub fn scsi(&mut self, device: &Device, call: &Scsi) {
        let mut buffer = vec![FILLING; call.length];
        let outcome = device.scsi_status(&call.request, call.allocation, &mut buffer);
        self.answer(outcome.err().unwrap_or(Answer::Done));
        self.keep(outcome, &buffer, Bench::show_data);
    }

    /// The SCSI reader on the kept bytes.
    pub fn scsiread(&mut self, request: &ScsiRequest) {
        match scsi::read(&self.page, request) {
            Ok(found) => {
                self.show_reading(&found.reading);
                self.text.push_str(&found.end_line());
            }
            Err(place) => self.answer(Answer::PageRefused { place }),
        }
    }

    /// The kept page as SCSI data.
    pub fn toscsi(&mut self, call: &ToScsi) {
        let mut buffer = vec![FILLING; call.length];
        let outcome = convert::to_scsi(&self.page, &call.registers, &mut buffer);
        self.bare_answer(outcome);
        self.keep(outcome, &buffer, Bench::show_data);
    }

    /// The kept SCSI data as a page.
    pub fn toata(&mut self, call: &ToAta) {
        let mut buffer = vec![FILLING; call.length];
        let outcome = convert::to_ata(&self.page, &call.request, call.pages, &mut buffer);
        self.bare_answer(outcome);
        self.keep(outcome, &buffer, Bench::show_page);
    }

    /// "bare numbers, as `read` answers".
    fn bare_answer(&mut self, outcome: Result<usize, Answer>) {
        match outcome {
            Ok(_) => self.say("0"),
            Err(refusal) => self.answer(refusal),
        }
    }

    /// What was written is kept; "A refusal keeps what was kept."
    fn keep(&mut self, outcome: Result<usize, Answer>, buffer: &[u8], show: fn(&mut Bench)) {
        if let Ok(written) = outcome {
            self.page = buffer[..written].to_vec();
            show(self);
        }
        self.say_touched(buffer, outcome.unwrap_or(0));
    }

    /// "a line `bytes N` (decimal) and rows .., the last one shorter, zero rows too".
    fn show_data(&mut self) {
        self.say(&format!("bytes {}", self.page.len()));
        let rows = rows_text(&self.page);
        self.text.push_str(&rows);
    }
}
