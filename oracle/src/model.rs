original!("model_hit_object.rs");

pub mod beatmap {
    original!("model_beatmap_attributes_ext.rs");

    pub use crate::stub::BeatmapAttributes;

    pub(crate) use self::ext::BeatmapAttributesExt;
}
