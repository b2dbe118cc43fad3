//! Whether JSON is as a schema of docs/schemas says, by the keywords that these have.
use serde_json::Value;
use std::net::Ipv4Addr;

pub struct Schema(Value);

impl Schema {
    /// Of docs/schemas/NAME.json.
    pub fn read(name: &str) -> Schema {
        let file = format!("{}/../docs/schemas/{name}.json", env!("CARGO_MANIFEST_DIR"));
        Schema(serde_json::from_str(&std::fs::read_to_string(&file).expect(&file)).expect(&file))
    }

    pub fn fits(&self, value: &Value) -> bool {
        self.fits_part(value, &self.0)
    }

    fn fits_part(&self, value: &Value, schema: &Value) -> bool {
        schema.as_object().expect("a schema").iter().all(|(keyword, wanted)| {
            let it_does = self.fits_keyword(value, keyword, wanted, schema);
            if !it_does {
                eprintln!("{value} doesn't fit {keyword}: {wanted}");
            }
            it_does
        })
    }

    /// Whether a value fits one keyword of a schema.
    fn fits_keyword(&self, value: &Value, keyword: &str, wanted: &Value, schema: &Value) -> bool {
        let names = || value.as_object().into_iter().flatten();
        let properties = &schema["properties"];
        match keyword {
            "$schema" | "$defs" | "title" | "description" => true,
            "$ref" => {
                let at = wanted.as_str().and_then(|at| at.strip_prefix('#')).expect("a part of the same schema");
                self.fits_part(value, self.0.pointer(at).expect(at))
            }
            "type" => is_of(value, wanted),
            "enum" => wanted.as_array().expect("a list").contains(value),
            "required" => {
                let mut wanted = wanted.as_array().expect("a list").iter().filter_map(Value::as_str);
                value.as_object().map_or(true, |there| wanted.all(|name| there.contains_key(name)))
            }
            "additionalProperties" => names().all(|(name, _)| properties.get(name).is_some()),
            "properties" => {
                names().all(|(name, inner)| wanted.get(name).map_or(true, |schema| self.fits_part(inner, schema)))
            }
            "items" => value.as_array().into_iter().flatten().all(|item| self.fits_part(item, wanted)),
            "minimum" => value.as_f64().map_or(true, |number| number >= wanted.as_f64().expect("a number")),
            "format" => value.as_str().map_or(true, |text| text.parse::<Ipv4Addr>().is_ok()),
            other => panic!("the keyword {other} isn't known here"),
        }
    }
}

/// Whether a value is of a type, or of one of several.
fn is_of(value: &Value, types: &Value) -> bool {
    let is = |name: &Value| match name.as_str() {
        Some("object") => value.is_object(),
        Some("array") => value.is_array(),
        Some("string") => value.is_string(),
        Some("integer") => value.is_u64(),
        Some("number") => value.is_number(),
        Some("boolean") => value.is_boolean(),
        Some("null") => value.is_null(),
        other => panic!("{other:?} is no type"),
    };
    types.as_array().map_or_else(|| is(types), |list| list.iter().any(is))
}
