//! What a partition may order, and what it may sense.

use crate::status;
use crate::table::{Connector, Index, State, Table, Walk, PHB, SLOT};

const ISOLATION: u32 = 9001;
const ALLOCATION: u32 = 9003;

#[derive(Clone, Copy)]
enum Order {
    Isolate,
    Unisolate,
    Usable,
    Unusable,
}

impl Order {
    fn new(token: u32, value: u32) -> Option<Order> {
        match (token, value) {
            (ISOLATION, 0) => Some(Order::Isolate),
            (ISOLATION, 1) => Some(Order::Unisolate),
            (ALLOCATION, 1) => Some(Order::Usable),
            (ALLOCATION, 0) => Some(Order::Unusable),
            _ => None,
        }
    }
}

impl Table {
    /// The row of the partition's own connector with the index.
    pub(crate) fn own_row(&self, partition: u32, index: Index) -> Option<usize> {
        self.row(index).filter(|&row| self.connectors[row].partition == partition)
    }

    pub fn set_indicator(&mut self, partition: u32, token: u32, index: Index, value: u32) -> i32 {
        let Some(order) = Order::new(token, value) else {
            return status::BAD_ARGUMENT;
        };
        let Some(row) = self.own_row(partition, index) else {
            return status::BAD_ARGUMENT;
        };
        match order {
            Order::Isolate => self.isolate(row),
            Order::Unisolate => self.unisolate(row),
            Order::Usable => self.usable(row),
            Order::Unusable => self.unusable(row),
        }
    }

    /// Stores what an order made of a connector.
    fn store(&mut self, row: usize, connector: Connector) -> i32 {
        self.connectors[row] = connector;
        status::OK
    }

    fn isolate(&mut self, row: usize) -> i32 {
        let (connector, state) = (self.connectors[row], State::Available);
        match connector.state {
            State::Unusable | State::Available => status::OK,
            State::Unisolated => {
                self.store(row, Connector { state, walk: Walk::default(), ..connector })
            }
            State::Configured if self.slot_in_use_below(&connector) => status::SLOT_IN_USE,
            State::Configured => self.store(row, Connector { state, ..connector }),
        }
    }

    fn unisolate(&mut self, row: usize) -> i32 {
        let (connector, state) = (self.connectors[row], State::Unisolated);
        match connector.state {
            State::Unusable => status::BAD_ARGUMENT,
            State::Available => {
                self.store(row, Connector { state, walk: Walk::default(), ..connector })
            }
            State::Unisolated | State::Configured => status::OK,
        }
    }

    fn usable(&mut self, row: usize) -> i32 {
        let connector = self.connectors[row];
        if connector.state != State::Unusable {
            return status::OK;
        }
        let on_offer = connector.resource.is_some() && !connector.wanted;
        if !on_offer || !self.parent_allows(&connector) {
            return status::BAD_ARGUMENT;
        }
        self.store(row, Connector { state: State::Available, ..connector })
    }

    fn unusable(&mut self, row: usize) -> i32 {
        let (connector, state) = (self.connectors[row], State::Unusable);
        match connector.state {
            State::Unusable => status::OK,
            State::Available => {
                self.return_to_pool(connector.resource, connector.index);
                self.store(row, Connector { state, resource: None, wanted: false, ..connector })
            }
            State::Unisolated | State::Configured => status::BAD_ARGUMENT,
        }
    }

    fn slot_in_use_below(&self, bridge: &Connector) -> bool {
        let below = |c: &Connector| c.kind == SLOT && c.parent == Some(bridge.index);
        bridge.kind == PHB && self.connectors.iter().any(|c| below(c) && c.state != State::Unusable)
    }

    /// No parent was given, or it is Configured.
    fn parent_allows(&self, connector: &Connector) -> bool {
        connector
            .parent
            .is_none_or(|parent| self.find(parent).is_some_and(|p| p.state == State::Configured))
    }

    /// The status and the value.
    pub fn get_sensor(&self, partition: u32, token: u32, index: Index) -> (i32, u32) {
        match self.find(index).filter(|c| c.partition == partition) {
            Some(connector) if token == ALLOCATION => match connector.state {
                State::Unusable => (status::OK, 2),
                _ => (status::OK, 1),
            },
            _ => (status::BAD_ARGUMENT, 0),
        }
    }
}
