//! Wrong checkers: the reference's answer altered.

use super::ran::Ran;
use super::Wrong;
use crate::implementation::{Implementation, REFERENCE};
use crate::inputs::lent::Lent;
use crate::run::Function;
use reference::checker::is_start;
use reference::packet;

pub fn runs() -> Vec<Wrong> {
    vec![
        wrong_check!("picture not compared", |ran| {
            if let Some(place) = ran.refused(10) {
                if ran.succeeds(place) {
                    ran.pass_by_one_more();
                }
            }
        }),
        wrong_check!("refused packet counted", |ran| {
            ran.checked.packets += usize::from(ran.refused(8).is_some());
        }),
        wrong_check!("start not counted", |ran| {
            ran.checked.packets -= usize::from(ran.checked.answer.is_ok());
        }),
        wrong_check!("no packets counted in a cut script", |ran| {
            if ran.refused(7).is_some() {
                ran.checked.packets = 0;
            }
        }),
        wrong_check!("core of length 0 taken for a start", |ran| {
            if let Some(place) = ran.refused(8) {
                if ran
                    .frame(place)
                    .is_some_and(|frame| frame[1..4] == [0, 0, 0x27])
                {
                    ran.refuse(10, place);
                }
            }
        }),
        wrong_check!("only sound starts compared", |ran| {
            if let Some(place) = ran.refused(10) {
                if ran
                    .frame(place)
                    .is_some_and(|frame| packet::core(frame).is_err())
                {
                    ran.refuse(8, place);
                }
            }
        }),
    ]
}

pub fn refusals() -> Vec<Wrong> {
    vec![
        wrong_check!("9 where both runs refuse", |ran| {
            if let Some(place) = ran.refused(8) {
                if !ran.succeeds_over(ran.ones(), place) {
                    ran.refuse(9, place);
                }
            }
        }),
        wrong_check!("9 where unknown bytes alone differ", |ran| {
            if let Some(place) = ran.refused(10) {
                if *ran.region == ran.picture() {
                    ran.refuse(9, place);
                }
            }
        }),
        wrong_check!("7 before 11", |ran| {
            if let Some(place) = ran.refused(11) {
                if ran.frame(place).is_none() {
                    ran.refuse(7, place);
                }
            }
        }),
        wrong_check!("8 before 10", |ran| {
            if let Some(place) = ran.refused(10) {
                if !ran.succeeds(place) {
                    ran.refuse(8, place);
                }
            }
        }),
        wrong_check!("bytes after the start left", |ran| {
            if ran.refused(11).is_some() {
                ran.checked.answer = Ok(());
            }
        }),
        wrong_check!("place of 11 at the start packet", |ran| {
            if let Some(place) = ran.refused(11) {
                ran.refuse(11, place - 10);
            }
        }),
        wrong_check!("place of 12 is 0", |ran| {
            if ran.refused(12).is_some() {
                ran.refuse(12, 0);
            }
        }),
        wrong_check!("place of 7 at the script's end", |ran| {
            if ran.refused(7).is_some() {
                ran.refuse(7, ran.script.len());
            }
        }),
        wrong_check!("expected checksum not judged", |ran| {
            if let Some(place) = ran.refused(8) {
                let last = ran
                    .frame(place)
                    .filter(|frame| frame.len() + place == ran.script.len());
                if last.is_some_and(is_start) {
                    ran.pass_by_one_more();
                }
            }
        }),
        wrong_check!("6 before 3", |ran| {
            if ran.refused(3).is_some() && !ran.script.starts_with(b"BSX\x01\x00") {
                ran.refuse(6, 0);
            }
        }),
        wrong_check!("version not judged", |ran| {
            if ran.refused(6).is_some() && ran.script.starts_with(b"BSX") {
                ran.refuse(12, 5);
            }
        }),
        wrong_check!("longest script one byte longer", |ran| {
            if ran.script.len() == 2_097_153 {
                ran.refuse(11, 2_097_152);
            }
        }),
        wrong_check!("longest script one byte shorter", |ran| {
            if ran.script.len() == 2_097_152 {
                ran.refuse(18, 0);
            }
        }),
    ]
}
