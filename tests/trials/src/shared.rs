//! What the trials of nodes share: their clusters, the first nodes and seats, what is asked of a node, and what is said of it.

mod acts;
mod clusters;
mod dealing;
mod nodes;
mod runtime;
mod telling;

pub use acts::{Act, conn_of, push_outputs, push_response, words_of};
pub use clusters::{
    one_replica, three_masters, two_masters, with_elections, with_long_streams,
    with_replicas,
};
pub use dealing::{Two, deal_one, deal_two};
pub use nodes::{Shared, cell_of, shared_node_of};
pub use runtime::Runtime;
pub use telling::{say, tell, tell_count};
