"""Which files of tests take longest, in seconds where little else runs."""

SECONDS = {
    "test_cluster_etcd": 190, "test_cluster_recover": 160, "test_serving_closed_ports": 150, "test_cluster_gateway": 140,
    "test_serving_candidates": 120, "test_serving_cut_fronts": 120, "test_serving_wrong_keys": 120, "test_serving_ends": 110,
    "test_serving_options": 110, "test_cluster_replaced": 100, "test_cluster_stops": 90, "test_cluster_journals": 90,
    "test_full_journal": 70, "test_journal": 70, "test_clients": 60, "test_calls": 60, "test_front": 60, "test_cluster_fronts": 55,
    "test_book": 50, "test_hostile": 50, "test_cluster": 45, "test_cluster_faults": 45, "test_dumped_histories": 40,
}
