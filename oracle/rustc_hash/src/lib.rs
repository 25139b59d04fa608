pub type FxHashMap<K, V> = std::collections::HashMap<K, V>;
