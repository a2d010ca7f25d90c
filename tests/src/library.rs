//! The proved library, through its C interface.

use crate::harness::interface::{
    mover_best_order, mover_check_listing, mover_hex_read, mover_hex_write, mover_least_y,
    mover_mend, mover_operation, mover_read, mover_rebuild, mover_run, mover_split,
    mover_wear_refresh, Calls, HexCalls, ListingCall, OperationCall, OrderCalls,
};

pub fn calls() -> Calls {
    Calls {
        split: mover_split,
        run: mover_run,
        mend: mover_mend,
        read: mover_read,
        refresh: mover_wear_refresh,
        rebuild: mover_rebuild,
    }
}

pub fn operation() -> OperationCall {
    mover_operation
}

pub fn listing_call() -> ListingCall {
    mover_check_listing
}

pub fn order_calls() -> OrderCalls {
    OrderCalls {
        least: mover_least_y,
        best: mover_best_order,
    }
}

pub fn hex_calls() -> HexCalls {
    HexCalls {
        read: mover_hex_read,
        write: mover_hex_write,
    }
}
