//! Jobs that the proved calls accept, as the second reader has them.
use crate::input::{Input, Plan};
use crate::names::Names;
use crate::refusal::Told;
use crate::tariff::Tariff;
use crate::{output, refusal};
use dapohiru::{Counts, Rule, Verdict};
use dapohiru_second::job::Job;
use dapohiru_second::reading;

/// The plan that the proved call makes, with its counts, or what is said of its refusal.
pub fn planned(job: &Input) -> Result<(Vec<u8>, Counts), Told> {
    // planning writes a byte, 0 or 1, for each node and no others
    const UNWRITTEN: u8 = 255;
    let mut plan = vec![UNWRITTEN; dapohiru::PLAN_LEN];
    let counts = dapohiru::plan(&job.bytes, &mut vec![0; dapohiru::WORK_LEN], &mut plan)
        .map_err(|refusal| refusal::of_job(job, refusal))?;
    plan.retain(|&byte| byte != UNWRITTEN);
    Ok((plan, counts))
}

/// The counts of a plan, as they are printed.
pub fn counted(counts: &Counts) -> String {
    let Counts {
        points,
        watched,
        passes,
    } = counts;
    format!("event nodes {points}   watched {watched}   passes {passes}")
}

/// What the proved call finds of a plan, or what is said of its refusal.
pub fn checked(job: &Input, plan: &Plan, names: &Names) -> Result<Verdict, Told> {
    let work = &mut vec![0; dapohiru::WORK_LEN];
    dapohiru::check(&job.bytes, &plan.bytes, work)
        .map_err(|refusal| refusal::of_plan(job, plan, names, refusal))
}

/// What a plan costs a day by the proved call, in cents, or what is said of its refusal.
pub fn priced(job: &Input, plan: &Plan, volumes: &Input, tariff: &Tariff) -> Result<u64, Told> {
    tariff
        .price(&job.bytes, &plan.bytes, &volumes.bytes)
        .map_err(|refusal| refusal::of_price(job, plan, volumes, tariff, refusal))
}

/// The bytes of a plan that the proved call accepts; of one that is different a note says so.
pub fn given_plan(job: &Input, plan: Plan) -> Result<Vec<u8>, String> {
    named_plan(job, plan, &Names::default())
}

/// The same with names for what is said of a refusal.
pub fn named_plan(job: &Input, plan: Plan, names: &Names) -> Result<Vec<u8>, String> {
    judged_plan(job, plan, names).map(|(bytes, _)| bytes)
}

/// The same with what the proved call finds of the plan.
pub fn judged_plan(job: &Input, plan: Plan, names: &Names) -> Result<(Vec<u8>, Verdict), String> {
    let verdict = checked(job, &plan, names)?;
    if verdict == Verdict::Different {
        let shown = &plan.shown;
        output::note(&format!(
            "note: {shown} is different: on some walk it has other alarms than all points watched\n"
        ))?;
    }
    Ok((plan.bytes, verdict))
}

/// The job of a file, once the proved call has accepted it.
pub fn accepted(job: &Input) -> Result<Job, String> {
    rule(job)?;
    reading::job(&job.bytes).map_err(|number| refusal::by_second_reader_alone(&job.shown, number))
}

/// The rule of a job by the proved call, as the event step takes it, or what is said of its refusal.
pub fn rule(job: &Input) -> Result<Rule, Told> {
    dapohiru::rule(&job.bytes, &mut vec![0; dapohiru::WORK_LEN])
        .map_err(|refusal| refusal::of_job(job, refusal))
}
