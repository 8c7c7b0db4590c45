//! Documents in which the header, or what follows the map, is the matter.

use crate::documents::Document;
use crate::draft::Draft;
use oracle::map::Map;
use oracle::writing::write_map;

/// The map followed by bytes: few, another map, and more than any buffer holds.
pub fn followed(name: &str, map: &Map) -> Vec<Document> {
    let mut tails: Vec<Vec<u8>> = (0..=7).map(|length| vec![0; length]).collect();
    tails.extend([
        vec![1],
        vec![2],
        vec![4, 0, 0, 0, 1],
        vec![255; 1000],
        vec![7; 70_000],
        vec![2; 600_000],
    ]);
    tails.push(write_map(map));
    let mut documents = Vec::new();
    for tail in tails {
        let mut draft = Draft::of(map);
        let title = format!("{name}, followed by {} bytes", tail.len());
        draft.behind = tail;
        documents.push(Document {
            title: title.clone(),
            bytes: draft.bytes(),
        });
        draft.places += 1;
        documents.push(Document {
            title: format!("{title}, one place more"),
            bytes: draft.bytes(),
        });
    }
    documents
}

/// Headers of all kinds, with nothing behind them and with zeros.
pub fn headers() -> Vec<Document> {
    let mut documents = Vec::new();
    for kind in [0, 1, 2, 3, 4, 5, 129, 255] {
        for places in [0, 1, 2, 255, 256, 511, 512, 513, 768, 65_535] {
            for count in [0, 1, 255, 256, 4095, 4096, 4097, 65_535] {
                for zeros in [0, 30] {
                    let behind = vec![0; zeros];
                    let draft = Draft {
                        kind,
                        places,
                        count,
                        roads: vec![],
                        behind,
                        cut: 0,
                    };
                    let title = format!("header {kind} {places} {count} and {zeros} zeros");
                    documents.push(Document {
                        title,
                        bytes: draft.bytes(),
                    });
                }
            }
        }
    }
    documents
}
