
/// The whole job as the Rust does it, with no buffers: the quads, or a refusal's number. `bench/run` puts this behind the
/// oracle's calls in a copy of its source: nothing else asks for it.
pub fn job_only(domain: &Domain, h: f64, options: &Options) -> Result<usize, u8> {
    limits::begin(Until::End);
    let sizing = Sizing { size: h, all_quad: false };
    let paving = rust::mesh_with_stats_options(domain, &sizing, options).map_err(|e| number(&e))?;
    Ok(paving.quads.len())
}
