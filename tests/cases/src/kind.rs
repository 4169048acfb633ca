//! The kinds of arguments: numbers, slices, and records with the names of their cells.

pub struct Kind {
    pub name: &'static str,
    /// What a cell of the slice can hold, be it what a record may hold or not.
    pub least: i128,
    pub most: i128,
    /// A number by itself, and no slice.
    pub single: bool,
    /// Two hexadecimal digits a cell; otherwise a cell is written in decimal.
    pub hexadecimal: bool,
    /// The cells of a record in the header's order; none for a plain slice.
    pub names: &'static [&'static str],
    /// The kinds of named contents that a description may begin with.
    pub bases: &'static [&'static str],
}

const PLAIN: Kind = Kind {
    name: "",
    least: 0,
    most: u32::MAX as i128,
    single: false,
    hexadecimal: false,
    names: &[],
    bases: &[],
};

pub static NUMBER: Kind = Kind {
    name: "number",
    most: u64::MAX as i128,
    single: true,
    ..PLAIN
};
pub static BYTES: Kind = Kind {
    name: "bytes",
    most: u8::MAX as i128,
    hexadecimal: true,
    bases: &["bytes"],
    ..PLAIN
};
pub static I16: Kind = Kind {
    name: "i16",
    least: i16::MIN as i128,
    most: i16::MAX as i128,
    bases: &["i16"],
    ..PLAIN
};
pub static I32: Kind = Kind {
    name: "i32",
    least: i32::MIN as i128,
    most: i32::MAX as i128,
    bases: &["i32"],
    ..PLAIN
};
pub static LENGTHS: Kind = Kind {
    name: "lengths",
    most: u64::MAX as i128,
    ..PLAIN
};
pub static ROW: Kind = Kind {
    name: "row",
    names: &["slot", "slots", "padding"],
    bases: &["row"],
    ..PLAIN
};
pub static STATUS: Kind = Kind {
    name: "status",
    names: &STATUS_NAMES,
    bases: &["status"],
    ..PLAIN
};
pub static HOST: Kind = Kind {
    name: "host",
    names: BUILDER_NAMES.split_at(HOST_CELLS).0,
    bases: &["host"],
    ..PLAIN
};
pub static BUILDER: Kind = Kind {
    name: "builder",
    names: &BUILDER_NAMES,
    bases: &["builder", "host"],
    ..PLAIN
};
pub static COUNTS: Kind = Kind {
    name: "counts",
    most: u64::MAX as i128,
    names: &["held", "frames", "skipped", "total"],
    bases: &["counts"],
    ..PLAIN
};

/// The kinds of which contents can be given a name.
pub static NAMED: [&Kind; 8] = [&BYTES, &I16, &I32, &ROW, &STATUS, &HOST, &BUILDER, &COUNTS];

#[rustfmt::skip]
static STATUS_NAMES: [&str; 26] = [
    "dot", "dash", "ptt",
    "adc1", "adc2", "adc3", "adc4",
    "io1", "io2", "io3", "io4",
    "pll", "toggle",
    "mercury", "penelope", "main",
    "ain5", "ain1", "ain2", "ain3", "ain4", "ain6",
    "board1", "board2", "board3", "board4",
];

const HOST_CELLS: usize = 62;

/// Those of a host record, and the turn.
#[rustfmt::skip]
static BUILDER_NAMES: [&str; HOST_CELLS + 1] = [
    "mox",
    "speed", "source10", "source122", "boards", "microphone",
    "class_e", "outputs",
    "attenuator", "preamp", "dither", "random",
    "antenna", "rx_out", "relay", "duplex",
    "receivers", "time_stamp", "common_frequency",
    "transmitter",
    "frequencies[0]", "frequencies[1]", "frequencies[2]", "frequencies[3]", "frequencies[4]", "frequencies[5]",
    "frequencies[6]",
    "drive",
    "mic_boost", "line_in", "apollo_filter", "apollo_tuner", "auto_tune", "filter_board", "manual_filters", "vna",
    "high_pass_13", "high_pass_20", "high_pass_9_5", "high_pass_6_5", "high_pass_1_5", "bypass", "amplifier_6m",
    "tr_disabled",
    "low_pass_30_20", "low_pass_60_40", "low_pass_80", "low_pass_160", "low_pass_6", "low_pass_12_10",
    "low_pass_17_15",
    "rx_preamps[0]", "rx_preamps[1]", "rx_preamps[2]", "rx_preamps[3]",
    "orion_jack", "mic_bias", "mic_ptt_disabled",
    "line_in_gain", "word10_c2_top", "word10_c3", "word10_c4",
    "turn",
];

impl Kind {
    /// The cell of a name.
    pub fn cell(&self, name: &str) -> Option<usize> {
        self.names.iter().position(|&known| known == name)
    }

    /// A cell by its name, or by its place.
    pub fn place(&self, cell: usize) -> String {
        match self.names.get(cell) {
            Some(name) => format!(" {name}"),
            None => format!("[{cell}]"),
        }
    }

    pub fn shown(&self, value: i128) -> String {
        match self.hexadecimal {
            true => format!("{value:02X}"),
            false => value.to_string(),
        }
    }
}
