// HpsWriter on a description of a loading.
use crate::answers::{bytes, refusal};
use std::io::{self, Cursor, Seek, SeekFrom, Write};
use std::panic::{AssertUnwindSafe, catch_unwind};
use std::sync::{Arc, Mutex};
use unplug::audio::cue::Cue;
use unplug::audio::format::Format;
use unplug::audio::format::adpcm::{FrameContext, GcAdpcm, Info};
use unplug::audio::transport::hps::{HpsWriter, Looping};
use unplug::audio::{ProgressHint, ReadSamples, Result, Samples, SourceTag};

/// One channel's blocks and cues, as HpsWriter pulls them.
#[derive(Default)]
struct Source {
    blocks: std::collections::VecDeque<Samples<'static, GcAdpcm>>,
    cues: Vec<Cue>,
    tag: SourceTag,
}

impl ReadSamples<'static> for Source {
    type Format = GcAdpcm;
    fn read_samples(&mut self) -> Result<Option<Samples<'static, GcAdpcm>>> {
        Ok(self.blocks.pop_front())
    }
    fn format(&self) -> Format {
        Format::GcAdpcm
    }
    fn tag(&self) -> &SourceTag {
        &self.tag
    }
    fn progress(&self) -> Option<ProgressHint> {
        None
    }
    fn data_remaining(&self) -> Option<u64> {
        None
    }
    fn cues(&self) -> Box<dyn Iterator<Item = Cue> + '_> {
        Box::from(self.cues.iter().cloned())
    }
}

/// The file. It can be looked at after HpsWriter has ended in an error or a panic.
#[derive(Clone, Default)]
struct File(Arc<Mutex<Cursor<Vec<u8>>>>);

impl Write for File {
    fn write(&mut self, bytes: &[u8]) -> io::Result<usize> {
        self.0.lock().unwrap().write(bytes)
    }
    fn flush(&mut self) -> io::Result<()> {
        Ok(())
    }
}

impl Seek for File {
    fn seek(&mut self, to: SeekFrom) -> io::Result<u64> {
        self.0.lock().unwrap().seek(to)
    }
}

/// `KIND START NAME`. NAME is a number, written in ten right-justified columns, or ~ and the name.
fn cue(words: &[&str]) -> Cue {
    let start = words[1].parse().expect("start");
    let name = match words[2].strip_prefix('~') {
        Some(name) => name.to_string(),
        None => format!("{:>10}", words[2].parse::<u32>().expect("name")),
    };
    match words[0] {
        "point" => Cue::new(name, start),
        "loop" => Cue::new_loop(name, start),
        range => {
            let length = range.strip_prefix("range:").expect("point, loop or range:LENGTH");
            Cue::new_range(name, start, length.parse().expect("range length"))
        }
    }
}

/// `RATE LENGTH DATA COEFFICIENTS GAIN CONTEXT`.
fn block(words: &[&str]) -> Samples<'static, GcAdpcm> {
    let coefficients: Vec<i16> = words[3].split(',').map(|n| n.parse().unwrap()).collect();
    let context: Vec<i32> = words[5].split(',').map(|n| n.parse().unwrap()).collect();
    Samples {
        channels: 1,
        rate: words[0].parse().expect("rate"),
        len: words[1].parse().expect("length"),
        data: bytes(words[2]).into(),
        params: Info {
            coefficients: match coefficients[..] {
                [one] => [one; 16],
                _ => coefficients.try_into().expect("1 or 16 coefficients"),
            },
            gain: words[4].parse().expect("gain"),
            context: FrameContext {
                predictor_and_scale: context[0] as u16,
                last_samples: [context[1] as i16, context[2] as i16],
            },
        },
    }
}

/// Runs HpsWriter; gives the bytes that it wrote, and how it ended.
pub fn load(description: &str) -> (Vec<u8>, std::result::Result<(), String>) {
    let (mut left, mut right) = (Source::default(), Source::default());
    let (mut stereo, mut looping) = (false, None);
    for line in description.split(['\n', ';']) {
        let words: Vec<&str> = line.split_whitespace().collect();
        match words[..] {
            [] => {}
            ["mode", "disabled"] => looping = Some(Looping::Disabled),
            ["mode", "enabled"] => looping = Some(Looping::Enabled),
            ["mode", "auto"] => looping = Some(Looping::Auto),
            ["mode", "default"] => looping = None, // `looping` is not called
            ["channels", count] => stereo = count == "2",
            ["cue", _, _, _] => left.cues.push(cue(&words[1..])),
            ["rcue", _, _, _] => right.cues.push(cue(&words[1..])),
            ["left", _, _, _, _, _, _] => left.blocks.push_back(block(&words[1..])),
            ["right", _, _, _, _, _, _] => right.blocks.push_back(block(&words[1..])),
            _ => panic!("not a line of a description: {line}"),
        }
    }
    let mut writer = match stereo {
        true => HpsWriter::with_stereo(left, right),
        false => HpsWriter::with_mono(left),
    };
    if let Some(mode) = looping {
        writer = writer.looping(mode);
    }
    let file = File::default();
    let end = match catch_unwind(AssertUnwindSafe(|| writer.write_to(file.clone()))) {
        Ok(Ok(())) => Ok(()),
        Ok(Err(e)) => Err(refusal(&e)),
        Err(_) => Err("PANIC".into()),
    };
    let bytes = file.0.lock().unwrap().get_ref().clone();
    (bytes, end)
}
