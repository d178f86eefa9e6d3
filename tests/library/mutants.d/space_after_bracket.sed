# crates/scanner/src/lib.rt
s/^        if digital && is_kind(self.kinds, b, Kind::SPACE) {/        if !digital \&\& is_kind(self.kinds, b, Kind::SPACE) {/
