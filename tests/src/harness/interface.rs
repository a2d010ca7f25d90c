//! The C interface of a mover: for each call the type of a function with its parameters, and the library's own by its name.

macro_rules! calls {
    ($($Type:ident, $name:ident($($parameter:ident: $kind:ty,)*);)*) => {
        $(pub type $Type = unsafe extern "C" fn($($parameter: $kind),*) -> u32;)*

        #[cfg(feature = "library")]
        extern "C" {
            $(pub fn $name($($parameter: $kind),*) -> u32;)*
        }
    };
}

calls! {
    SplitCall, mover_split(
        n: u32,
        m: u32,
        page_bytes: u32,
        s: u32,
        list: *const u8,
        list_len: u64,
        pins: *const u8,
        pins_len: u64,
        sets: *mut u8,
        sets_len: u64,
    );
    RunCall, mover_run(
        n: u32,
        m: u32,
        page_bytes: u32,
        s: u32,
        list: *const u8,
        list_len: u64,
        pins: *const u8,
        pins_len: u64,
        sets: *const u8,
        sets_len: u64,
        store: *mut u8,
        store_len: u64,
        marks: *mut u8,
        marks_len: u64,
        work: *mut u8,
        work_len: u64,
        wear: *mut u8,
        wear_len: u64,
        place: u32,
        budget: u32,
        wear_limit: u32,
        place_reached: *mut u32,
        steps: *mut u32,
        writes: *mut u32,
        erases: *mut u32,
        finished: *mut u32,
        written_bytes: *mut u32,
        pages_read: *mut u32,
    );
    MendCall, mover_mend(
        n: u32,
        m: u32,
        page_bytes: u32,
        s: u32,
        store: *mut u8,
        store_len: u64,
        marks: *mut u8,
        marks_len: u64,
        wear: *mut u8,
        wear_len: u64,
        place: *mut u32,
        erases: *mut u32,
    );
    ReadCall, mover_read(
        n: u32,
        m: u32,
        page_bytes: u32,
        s: u32,
        list: *const u8,
        list_len: u64,
        pins: *const u8,
        pins_len: u64,
        sets: *const u8,
        sets_len: u64,
        store: *const u8,
        store_len: u64,
        marks: *const u8,
        marks_len: u64,
        work: *mut u8,
        work_len: u64,
        original: u32,
        count: *mut u32,
        written_bytes: *mut u32,
    );
    RefreshCall, mover_wear_refresh(
        wear: *mut u8,
        wear_len: u64,
    );
    RebuildCall, mover_rebuild(
        n: u32,
        m: u32,
        page_bytes: u32,
        s: u32,
        list: *const u8,
        list_len: u64,
        pins: *const u8,
        pins_len: u64,
        sets: *const u8,
        sets_len: u64,
        store: *const u8,
        store_len: u64,
        marks: *const u8,
        marks_len: u64,
        area: *mut u8,
        area_len: u64,
        flags: *mut u8,
        flags_len: u64,
        slot: u32,
    );
    OperationCall, mover_operation(
        n: u32,
        m: u32,
        s: u32,
        place: u32,
        kind: *mut u32,
        block: *mut u32,
        page: *mut u32,
        mark: *mut u32,
    );
    ListingCall, mover_check_listing(
        n: u32,
        m: u32,
        list: *const u8,
        list_len: u64,
        text: *const u8,
        text_len: u64,
        line: *mut u32,
        accepted: *mut u32,
    );
    LeastCall, mover_least_y(
        n: u32,
        m: u32,
        list: *const u8,
        list_len: u64,
        order: *const u8,
        order_len: u64,
        y: *mut u32,
        page: *mut u32,
    );
    BestCall, mover_best_order(
        n: u32,
        m: u32,
        list: *const u8,
        list_len: u64,
        order: *mut u8,
        order_len: u64,
        y: *mut u32,
        page: *mut u32,
    );
    HexReadCall, mover_hex_read(
        n: u32,
        m: u32,
        page_bytes: u32,
        text: *const u8,
        text_len: u64,
        store: *mut u8,
        store_len: u64,
        marks: *mut u8,
        marks_len: u64,
    );
    HexWriteCall, mover_hex_write(
        n: u32,
        m: u32,
        page_bytes: u32,
        store: *const u8,
        store_len: u64,
        marks: *const u8,
        marks_len: u64,
        text: *mut u8,
        text_len: u64,
    );
}

/// The calls of a mover.
#[derive(Clone, Copy)]
pub struct Calls {
    pub split: SplitCall,
    pub run: RunCall,
    pub mend: MendCall,
    pub read: ReadCall,
    pub refresh: RefreshCall,
    pub rebuild: RebuildCall,
}

/// The calls about block orders.
#[derive(Clone, Copy)]
pub struct OrderCalls {
    pub least: LeastCall,
    pub best: BestCall,
}

/// The calls that read and write Intel HEX.
#[derive(Clone, Copy)]
pub struct HexCalls {
    pub read: HexReadCall,
    pub write: HexWriteCall,
}
