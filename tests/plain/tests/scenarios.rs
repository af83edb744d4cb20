//! The named scenarios through both engines.

mod hashed {
    reference::test_scenarios!(plain::HASHED);
}

mod linear {
    reference::test_scenarios!(plain::LINEAR);
}
