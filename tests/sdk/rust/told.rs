//! What the crate answers, as the list of cases writes it.
use crate::json::Json;
use kotskhin::{Error, Incarnation, OwnedValue, Row, Shape, Streams, Taken, Total};
use std::fmt::Display;

pub fn pairs(pairs: &[(String, OwnedValue)]) -> Json {
    let told = pairs.iter().map(|(key, value)| {
        let value = match value {
            OwnedValue::Text(text) => Json::Text(text.clone()),
            OwnedValue::Whole(number) => Json::number(number),
            OwnedValue::Truth(truth) => Json::Truth(*truth),
        };
        Json::List(vec![Json::Text(key.clone()), value])
    });
    Json::List(told.collect())
}

pub fn list<T: Display>(list: &[T]) -> Json {
    Json::List(list.iter().map(Json::number).collect())
}

pub fn row(row: &Row) -> Json {
    let mut told = Json::fields([
        ("attributes", pairs(&row.attributes)),
        ("points", Json::number(row.points)),
        ("conflicts", Json::number(row.conflicts)),
    ]);
    let Json::Fields(fields) = &mut told else {
        unreachable!()
    };
    let mut add = |name: &str, value: Json| fields.insert(name.to_owned(), value);
    match &row.total {
        Total::Sum(sum) => {
            add("total", Json::number(sum));
        }
        Total::Gauge(newest) => {
            if let Some((time, value)) = newest {
                add("time", Json::number(time));
                add("value", Json::number(value));
            }
        }
        Total::Histogram {
            count,
            sum,
            buckets,
            range,
        } => {
            add("count", Json::number(count));
            add("total", Json::number(sum));
            add("buckets", list(buckets));
            if let Some((least, greatest)) = range {
                add("least", Json::number(least));
                add("greatest", Json::number(greatest));
            }
        }
        other => panic!("{other:?} is of no shape that is known"),
    }
    told
}

pub fn streams(streams: &Streams) -> Result<Json, Error> {
    let told = streams.all()?.into_iter().map(|stream| {
        let shape = match stream.shape {
            Shape::Sum { monotonic: true } => Json::Text("monotonic sum".into()),
            Shape::Sum { monotonic: false } => Json::Text("sum".into()),
            Shape::Histogram { bounds } => Json::fields([("bounds", list(&bounds))]),
            _ => Json::Text("gauge".into()),
        };
        let words = [stream.scope, stream.name, stream.unit].map(Json::Text);
        Json::List(words.into_iter().chain([shape]).collect())
    });
    Ok(Json::List(told.collect()))
}

pub fn incarnation(of: &Incarnation) -> Json {
    Json::fields([
        ("service", Json::Text(of.service.clone())),
        ("instance", Json::number(of.instance)),
        ("start", Json::number(of.start)),
        ("newest", Json::number(of.newest)),
        ("points", Json::number(of.points)),
    ])
}

/// A refusal as the list writes it, of its name and its places.
pub fn refusal(error: Error) -> Json {
    let mut code = String::new();
    for (at, letter) in error.name().char_indices() {
        if at > 0 && letter.is_uppercase() {
            code.push('_');
        }
        code.push(letter.to_ascii_uppercase());
    }
    let mut told = Json::fields([("code", Json::Text(code))]);
    if let Json::Fields(fields) = &mut told {
        for (name, (_, place)) in ["place", "second"].into_iter().zip(error.places()) {
            fields.insert(name.to_owned(), Json::number(place));
        }
    }
    told
}

pub fn taken(taken: &Taken) -> Json {
    let mut told = match taken.first {
        Some((_, why)) => refusal(why),
        None => Json::fields([]),
    };
    if let Json::Fields(fields) = &mut told {
        fields.insert("recorded".into(), Json::number(taken.recorded));
        fields.insert("refused".into(), Json::number(taken.refused));
        if let Some((first, _)) = taken.first {
            fields.insert("first".into(), Json::number(first));
        }
    }
    told
}
