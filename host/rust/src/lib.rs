//! A plain reader of the radar wires, written from paper 01 ("What gets built and its exact rules"), paper 02 (i) to (vii)
//! and the makers' documents 000 to 004 alone. It is slow where slow is clearer, and it exists to be compared with.
//!
//! | Module | What it holds | Paper 01; paper 02 |
//! |---|---|---|
//! | [`refusal`] | the refusal numbers and the limits | "Refusal numbers" |
//! | [`judgement`] | whole, bad or waiting, for each dialect | "Judging a place" |
//! | [`sirad`] | the judgement of SiRad frames | "The three wires"; (ii) |
//! | [`packet_rules`] | the judgement of packets, by the rules of a dialect | "The three wires" |
//! | [`mmwave`], [`vital_signs`] | the rules of each packet dialect | "The three wires"; (i), (vii) |
//! | [`reading`] | the open and the closed reading, the choice of two lines | "Two readings" |
//! | [`feeder`] | bytes as the port gives them | (iii) |
//! | [`numbers`] | dB, phase, accuracy, millimetres | "Numbers"; (iv), (v) changes no answer |
//! | [`sirad_fields`], [`packet`] | what a whole frame holds, and SiRad writing | "Fields"; (ii), (iv) |
//! | [`proximity`] | whether anyone is close | (vi) |
//! | [`demorad`] | command words, both ways | "DemoRad" |
//! | [`listing`] | what the listing programs print | "The listing" |
//!
//! Beside the reader: [`generate`] makes captures from a seed, [`abi`] has the libraries' answers in their C form,
//! [`compare`] runs any subject with that face against the reader, and `gateway` (there only if the libraries are
//! linked) is them as such a subject; [`abi::fields`] and [`compare::fields`] are the same for fields and commands,
//! [`abi::feeding`] and [`compare::feeding`] for the feeder, [`abi::proximity`] and [`compare::proximity`] for the question
//! whether anyone is close.

#![deny(unsafe_code)]
#![warn(missing_docs)]

pub mod abi;
pub mod compare;
pub mod demorad;
pub mod feeder;
#[cfg(gateway_linked)]
pub mod gateway;
pub mod generate;
pub mod judgement;
pub mod listing;
pub mod mmwave;
pub mod numbers;
pub mod packet;
pub mod packet_rules;
pub mod proximity;
pub mod reading;
pub mod refusal;
pub mod sirad;
pub mod sirad_fields;
pub mod vital_signs;
