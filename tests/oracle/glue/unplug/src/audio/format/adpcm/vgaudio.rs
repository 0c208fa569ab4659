// Stands in for unplug's vgaudio.rs: the names that encode.rs uses. Document 01 leaves encoding out.
pub mod coefficients {
    use crate::audio::format::adpcm::Coefficients;

    pub type Vec3 = [f64; 3];
    pub type PcmHistory = [i16; 28];

    pub fn process_frame(_history: &mut PcmHistory, _records: &mut Vec<Vec3>) {
        unimplemented!("encoding is not compared")
    }

    pub fn finish(_records: &[Vec3]) -> Coefficients {
        unimplemented!("encoding is not compared")
    }
}

pub mod encode {
    use crate::audio::format::adpcm::Info;

    pub fn encode(_samples: &[i16], _state: &mut Info) -> Vec<u8> {
        unimplemented!("encoding is not compared")
    }
}
