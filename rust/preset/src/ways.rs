//! The ways in, each from a text: read, validate, plan, and the listing.
use crate::fault::Fault;
use crate::owned;
use crate::refusal::Refusal;
use crate::rooms::{Held, promised};
use crate::schema::{ImagePlan, Preset, Selection};

impl Preset {
    /// The records of a text, whether or not they obey the rules: refuses with 1 to 25.
    ///
    /// ```
    /// use preset::{Chip, Preset};
    ///
    /// let preset = Preset::read(b"[board]\nchip = \"d21x\"\n", b"tour").unwrap();
    /// assert_eq!(preset.board.name, "tour");
    /// assert_eq!(preset.board.chip, Chip::D21x);
    /// assert!(preset.partitions.is_empty());
    /// ```
    ///
    /// # Panics
    ///
    /// Only where the linked library is not the proved one; so do the other three.
    pub fn read(text: &[u8], name: &[u8]) -> Result<Preset, Refusal> {
        let held = Held::by(|store, tree| port::records::read(text, name, store, tree))?;
        Ok(promised(owned::preset(held.rooms(), name)))
    }

    /// The records of a text that obeys the rules: refuses with 1 to 70.
    ///
    /// ```
    /// use preset::Preset;
    ///
    /// let refusal = Preset::validate(b"", b"desk").unwrap_err();
    /// assert_eq!(refusal.number, 40);
    /// ```
    pub fn validate(text: &[u8], name: &[u8]) -> Result<Preset, Refusal> {
        let held = Held::by(|store, tree| port::records::validate(text, name, store, tree))?;
        Ok(promised(owned::preset(held.rooms(), name)))
    }

    /// As [`Preset::validate`], and a refusal is told with where in the text it points.
    ///
    /// ```
    /// use preset::Preset;
    ///
    /// let text = b"[[partition]]\nname = \"boot\"\noffset = 0\nsize = 0\n";
    /// let fault = Preset::check(text, b"desk").unwrap_err();
    /// assert_eq!((fault.refusal.number, fault.line), (44, Some(4)));
    /// assert_eq!(fault.entry.as_deref(), Some("partition 0 \"boot\""));
    /// ```
    pub fn check(text: &[u8], name: &[u8]) -> Result<Preset, Fault> {
        let found = |refusal| Fault::find(text, refusal, None);
        Preset::validate(text, name).map_err(found)
    }

    /// As [`Preset::plan`], and a refusal is told with where in the text it points.
    ///
    /// ```
    /// use preset::{Preset, Selection};
    ///
    /// let text = std::fs::read("../../presets/example.toml").unwrap();
    /// let lamp = Selection::App("lamp".into());
    /// let fault = Preset::check_plan(&text, b"example", &lamp).unwrap_err();
    /// assert_eq!(fault.refusal.number, 80);
    /// assert!(fault.to_string().contains("\"lamp\""));
    /// ```
    pub fn check_plan(text: &[u8], name: &[u8], selection: &Selection) -> Result<ImagePlan, Fault> {
        let found = |refusal| Fault::find(text, refusal, selection.package());
        Preset::plan(text, name, selection).map_err(found)
    }

    /// The plan of what is selected: refuses with 1 to 81.
    ///
    /// ```
    /// use preset::{Preset, Selection, Source};
    ///
    /// let text = std::fs::read("../../presets/example.toml").unwrap();
    /// let plan = Preset::plan(&text, b"example", &Selection::Bootloader).unwrap();
    /// let first = &plan.components[0];
    /// assert!(matches!(&first.source, Source::Package { package, .. } if package == "loader"));
    /// assert_eq!(plan.partition("boot;mtd"), first.partition.as_ref());
    ///
    /// let other = Selection::App("lamp".into());
    /// assert_eq!(Preset::plan(&text, b"example", &other).unwrap_err().number, 80);
    /// ```
    pub fn plan(text: &[u8], name: &[u8], selection: &Selection) -> Result<ImagePlan, Refusal> {
        let chosen = selection.package().map(str::as_bytes).into();
        let held = Held::by(|store, tree| port::plans::plan(text, name, chosen, store, tree))?;
        Ok(promised(owned::plan(held.rooms(), name, chosen)))
    }

    /// 01's listing of a text that obeys the rules, with the plan of its boot chain: refuses with
    /// 1 to 70. Names stand in it in quotes, with five escapes and else as their bytes.
    ///
    /// ```
    /// use preset::Preset;
    ///
    /// let text = std::fs::read("../../presets/example.toml").unwrap();
    /// let listing = Preset::listing(&text, b"example").unwrap();
    /// let head = "ok d13x spi-nor 2 1 1 21\npart \"boot\" 0 262144 open\n";
    /// assert!(listing.starts_with(head.as_bytes()));
    /// ```
    pub fn listing(text: &[u8], name: &[u8]) -> Result<Vec<u8>, Refusal> {
        use port::listing::{list, out_min};
        let mut out = vec![0; out_min(name)];
        let mut written = 0;
        Held::by(|store, tree| {
            let got = list(text, name, store, tree, &mut out);
            written = got.written as usize;
            port::document::Outcome {
                number: got.number,
                section: got.section,
                place: got.place,
                made: 0,
            }
        })?;
        out.truncate(written);
        Ok(out)
    }
}
