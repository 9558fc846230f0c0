//! The calls of the scan tariff.

use crate::cases::TariffCase;
use crate::compared::{Answer, Call, Expected, Given, NUMBER, TARIFF};
use crate::layout::{BAD_FLAGS, Fee};
use crate::library;
use oracle::tariff::{fee_of_record, fee_of_sizes};

pub fn calls() -> Vec<Call<TariffCase>> {
    vec![
        Call::new(
            "fee_of_record",
            NUMBER,
            |TariffCase { record, rates, .. }| {
                Given::lent(Fee::PATTERN, |out| {
                    library::fee_of_record(record, *rates, &mut out.cents)
                })
            },
            |TariffCase { record, rates, .. }| {
                let record = record.to_rust().ok_or(BAD_FLAGS)?;
                priced(fee_of_record(&record, *rates))
            },
        )
        .by(TARIFF),
        Call::new(
            "fee_of_sizes",
            NUMBER,
            |case: &TariffCase| {
                Given::lent(Fee::PATTERN, |out| {
                    library::fee_of_sizes(&case.sizes, &case.known, case.rates, &mut out.cents)
                })
            },
            |case| priced(fee_of_sizes(&case.to_rust().ok_or(BAD_FLAGS)?, case.rates)),
        )
        .by(TARIFF),
    ]
}

fn priced(fee: Result<u64, u64>) -> Expected {
    let cents = fee.map_err(|number| number as u32)?;
    Ok(Answer::written(Fee { cents }))
}
