original!("any_hit_result.rs");
