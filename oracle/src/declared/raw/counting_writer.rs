// mod.rs declares this module and names nothing of it.
