//! The C calls of the static library.
extern "C" {
    /// `#[unsafe(no_mangle)] pub extern "C" fn dapohiru_check(job: &[u8], plan: &[u8], work: &mut [u8]) -> u64`
    pub fn dapohiru_check(
        job: *const u8,
        job_len: usize,
        plan: *const u8,
        plan_len: usize,
        work: *mut u8,
        work_len: usize,
    ) -> u64;

    /// `#[unsafe(no_mangle)] pub extern "C" fn dapohiru_event(rule: &[u8], states: u64, symbols: u64, finals: u64, symbol: u64, rec: &mut [u8]) -> u64`
    pub fn dapohiru_event(
        rule: *const u8,
        rule_len: usize,
        states: u64,
        symbols: u64,
        finals: u64,
        symbol: u64,
        rec: *mut u8,
        rec_len: usize,
    ) -> u64;

    /// `#[unsafe(no_mangle)] pub extern "C" fn dapohiru_plan(job: &[u8], work: &mut [u8], plan: &mut [u8]) -> u64`
    pub fn dapohiru_plan(
        job: *const u8,
        job_len: usize,
        work: *mut u8,
        work_len: usize,
        plan: *mut u8,
        plan_len: usize,
    ) -> u64;

    /// `#[unsafe(no_mangle)] pub extern "C" fn dapohiru_list(job: &[u8], work: &mut [u8], listing: &mut [u8]) -> u64`
    pub fn dapohiru_list(
        job: *const u8,
        job_len: usize,
        work: *mut u8,
        work_len: usize,
        listing: *mut u8,
        listing_len: usize,
    ) -> u64;

    /// `#[unsafe(no_mangle)] pub extern "C" fn dapohiru_price(job: &[u8], plan: &[u8], volumes: &[u8]) -> u64`
    pub fn dapohiru_price(
        job: *const u8,
        job_len: usize,
        plan: *const u8,
        plan_len: usize,
        volumes: *const u8,
        volumes_len: usize,
    ) -> u64;

    /// `#[unsafe(no_mangle)] pub extern "C" fn dapohiru_price_by(job: &[u8], plan: &[u8], volumes: &[u8], prices: &[u8]) -> u64`
    pub fn dapohiru_price_by(
        job: *const u8,
        job_len: usize,
        plan: *const u8,
        plan_len: usize,
        volumes: *const u8,
        volumes_len: usize,
        prices: *const u8,
        prices_len: usize,
    ) -> u64;

    /// `#[unsafe(no_mangle)] pub extern "C" fn dapohiru_rule(job: &[u8], work: &mut [u8], rule: &mut [u8]) -> u64`
    pub fn dapohiru_rule(
        job: *const u8,
        job_len: usize,
        work: *mut u8,
        work_len: usize,
        rule: *mut u8,
        rule_len: usize,
    ) -> u64;

    /// `#[unsafe(no_mangle)] pub extern "C" fn dapohiru_rows(rows: &[u8], states: u64, symbols: u64, finals: u64, rule: &mut [u8]) -> u64`
    pub fn dapohiru_rows(
        rows: *const u8,
        rows_len: usize,
        states: u64,
        symbols: u64,
        finals: u64,
        rule: *mut u8,
        rule_len: usize,
    ) -> u64;

    /// `#[unsafe(no_mangle)] pub extern "C" fn dapohiru_expression(text: &[u8], symbols: u64, rule: &mut [u8]) -> u64`
    pub fn dapohiru_expression(
        text: *const u8,
        text_len: usize,
        symbols: u64,
        rule: *mut u8,
        rule_len: usize,
    ) -> u64;

    /// `#[unsafe(no_mangle)] pub extern "C" fn dapohiru_add_edge(edges: &mut [u16], predecessors: &mut [u16], starts: &mut [u16], nodes: u64, count: u64, from: u64, to: u64) -> u64`
    pub fn dapohiru_add_edge(
        edges: *mut u16,
        edges_len: usize,
        predecessors: *mut u16,
        predecessors_len: usize,
        starts: *mut u16,
        starts_len: usize,
        nodes: u64,
        count: u64,
        from: u64,
        to: u64,
    ) -> u64;

    /// `#[unsafe(no_mangle)] pub extern "C" fn dapohiru_drop_edge(edges: &mut [u16], predecessors: &mut [u16], starts: &mut [u16], nodes: u64, count: u64, from: u64, to: u64) -> u64`
    pub fn dapohiru_drop_edge(
        edges: *mut u16,
        edges_len: usize,
        predecessors: *mut u16,
        predecessors_len: usize,
        starts: *mut u16,
        starts_len: usize,
        nodes: u64,
        count: u64,
        from: u64,
        to: u64,
    ) -> u64;

    /// `#[unsafe(no_mangle)] pub extern "C" fn dapohiru_index_edges(edges: &[u16], predecessors: &mut [u16], starts: &mut [u16], nodes: u64, count: u64) -> u64`
    pub fn dapohiru_index_edges(
        edges: *const u16,
        edges_len: usize,
        predecessors: *mut u16,
        predecessors_len: usize,
        starts: *mut u16,
        starts_len: usize,
        nodes: u64,
        count: u64,
    ) -> u64;
}
