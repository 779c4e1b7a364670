//! Counts that are printed by name, each of which a run must reach.

/// A struct of counts, each field with what it is called. Counts of several runs add up.
macro_rules! named_counts {
    ($(#[$of:meta])* $name:ident { $($(#[$what:meta])* $field:ident: $called:literal,)* }) => {
        $(#[$of])*
        #[derive(Clone, Debug, Default)]
        pub struct $name {
            $($(#[$what])* pub $field: u64,)*
        }

        impl $name {
            /// What a count is called, and the count.
            pub fn named(&self) -> Vec<(&'static str, u64)> {
                vec![$(($called, self.$field)),*]
            }

            pub fn add(&mut self, other: &$name) {
                $(self.$field += other.$field;)*
            }
        }
    };
}
