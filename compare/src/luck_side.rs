//! luck's own Rust as a side. It is asked only what 01 and 02 admit.

use crate::answers::*;
use crate::reading::{table, text};

pub struct Luck;

fn chart_of(graph: luck::Graph) -> Chart {
    Chart {
        first: graph.first,
        second: graph.second,
        start: graph.start,
        reachable: graph.reachable,
        code_span: graph.code_span,
        code_node: graph.code_node,
        name_span: graph.name_span,
        name_node: graph.name_node,
        name_scope_end: graph.name_scope_end,
    }
}

pub fn judgement_of(flow: luck::Flow) -> Judgement {
    Judgement {
        chart: chart_of(flow.graph),
        finding_word: flow.finding_word,
        finding_span: flow.finding_span,
    }
}

/// What `flowlist` prints, by luck's answers where the reading admits.
pub fn printed(bytes: &[u8]) -> Vec<u8> {
    match text::pair_of(bytes) {
        Some((sheet, uses)) => {
            let admission = table::of_pair(&sheet, &uses);
            text::lines(&admission.map(|()| judgement_of(luck::flow_of(&sheet, &uses))))
        }
        None => text::lines(&Err(2)),
    }
}

impl Side for Luck {
    fn name(&self) -> String {
        "luck".to_owned()
    }

    fn difference(&mut self, case: &Case, expected: &Answers) -> Option<String> {
        let chart = expected.chart.as_ref().ok()?;
        let judged = expected.judge.as_ref().ok();
        let flow = match judged {
            None => luck::flow_of(&case.sheet, &[0]),
            Some(_) if case.scopes.is_empty() => luck::flow_of(&case.sheet, &case.uses),
            Some(_) => luck::flow_in_scopes(&case.sheet, &case.uses, &case.scopes),
        };
        let runs = expected.runs.iter().find_map(|(offset, want)| {
            let have = Ok(flow.run(*offset));
            answer_difference(&format!("run {offset}"), want, &have, plain_difference)
        });
        let exits = flow.exits.map(u64::from);
        let got = judgement_of(flow);
        runs.or_else(|| column_difference("exits", &chart.reachable[..5], &exits))
            .or_else(|| columns_difference(&chart.columns(), &got.chart.columns()))
            .or_else(|| judged.and_then(|want| columns_difference(&want.columns(), &got.columns())))
    }
}
