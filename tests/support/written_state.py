"""A state as Terraform writes it, and each address and each dependency by hand."""

# A state as Terraform writes it, in its published layout: a network module for each of two zones,
# servers by `count` and by `for_each`, and data sources.
WRITTEN = r'''{
  "version": 4,
  "terraform_version": "1.9.5",
  "serial": 42,
  "lineage": "9b1c7f1e-2f0a-4b8e-9d55-0c8a6d1f7e21",
  "outputs": {"names": {"value": ["a", "b"], "type": ["tuple", ["string", "string"]]}, "secret": {"value": "s", "type": "string", "sensitive": true}},
  "resources": [
    {"mode": "data", "type": "cloud_image", "name": "linux", "provider": "provider[\"example.org/x/cloud\"]",
     "instances": [{"schema_version": 0, "attributes": {"id": "img-1"}, "sensitive_attributes": []}]},
    {"mode": "managed", "type": "cloud_network", "name": "main", "provider": "provider[\"example.org/x/cloud\"]",
     "instances": [{"schema_version": 1, "attributes": {"cidr": "10.0.0.0/8"}, "sensitive_attributes": []}]},
    {"module": "module.zone[\"east\"]", "mode": "data", "type": "cloud_zone", "name": "this", "provider": "provider[\"example.org/x/cloud\"]",
     "instances": [{"schema_version": 0, "attributes": {"name": "east"}, "sensitive_attributes": []}]},
    {"module": "module.zone[\"east\"]", "mode": "managed", "type": "cloud_subnet", "name": "private", "provider": "provider[\"example.org/x/cloud\"]",
     "instances": [
      {"index_key": 0, "schema_version": 1, "attributes": {}, "sensitive_attributes": [],
       "dependencies": ["cloud_network.main", "module.zone.data.cloud_zone.this"]},
      {"index_key": 1, "schema_version": 1, "attributes": {}, "sensitive_attributes": [],
       "dependencies": ["cloud_network.main", "module.zone.data.cloud_zone.this"]},
      {"index_key": 2, "schema_version": 1, "attributes": {}, "sensitive_attributes": [],
       "dependencies": ["cloud_network.main", "module.zone.data.cloud_zone.this"]}]},
    {"module": "module.zone[\"east\"].module.gate", "mode": "managed", "type": "cloud_gateway", "name": "out",
     "provider": "provider[\"example.org/x/cloud\"]",
     "instances": [{"schema_version": 0, "attributes": {}, "sensitive_attributes": [], "dependencies": ["module.zone.cloud_subnet.private"]}]},
    {"module": "module.zone[\"west\"]", "mode": "data", "type": "cloud_zone", "name": "this", "provider": "provider[\"example.org/x/cloud\"]",
     "instances": [{"schema_version": 0, "attributes": {"name": "west"}, "sensitive_attributes": []}]},
    {"module": "module.zone[\"west\"]", "mode": "managed", "type": "cloud_subnet", "name": "private", "provider": "provider[\"example.org/x/cloud\"]",
     "instances": [
      {"index_key": 0, "schema_version": 1, "attributes": {}, "sensitive_attributes": [],
       "dependencies": ["cloud_network.main", "module.zone.data.cloud_zone.this"]},
      {"index_key": 1, "schema_version": 1, "attributes": {}, "sensitive_attributes": [],
       "dependencies": ["cloud_network.main", "module.zone.data.cloud_zone.this"]}]},
    {"mode": "managed", "type": "cloud_server", "name": "web", "provider": "provider[\"example.org/x/cloud\"]", "each": "list",
     "instances": [
      {"index_key": 0, "schema_version": 2, "attributes": {"ports": [80, 443]}, "sensitive_attributes": [], "private": "eyJ4Ijox",
       "dependencies": ["cloud_network.main", "data.cloud_image.linux", "module.zone.cloud_subnet.private"]},
      {"index_key": 1, "schema_version": 2, "attributes": {"ports": [80, 443]}, "sensitive_attributes": [], "private": "eyJ4Ijox",
       "dependencies": ["cloud_network.main", "data.cloud_image.linux", "module.zone.cloud_subnet.private"]},
      {"index_key": 1, "deposed": "5a9c01ef", "schema_version": 2, "attributes": {"ports": []}, "sensitive_attributes": [],
       "dependencies": ["cloud_network.main"]}]},
    {"mode": "managed", "type": "cloud_server", "name": "job", "provider": "provider[\"example.org/x/cloud\"]", "each": "map",
     "instances": [
      {"index_key": "clean up", "schema_version": 2, "attributes": {}, "sensitive_attributes": [[{"type": "get_attr", "value": "token"}]],
       "dependencies": ["cloud_server.web", "data.cloud_image.linux"]},
      {"index_key": "naïve\"]", "schema_version": 2, "attributes": {}, "sensitive_attributes": [],
       "dependencies": ["cloud_server.web[0]"], "create_before_destroy": true}]},
    {"mode": "managed", "type": "cloud_disk", "name": "data", "provider": "provider[\"example.org/x/cloud\"]",
     "instances": [
      {"index_key": "a", "schema_version": 0, "attributes": {}, "sensitive_attributes": [], "dependencies": ["cloud_server.web"]},
      {"index_key": "b", "schema_version": 0, "attributes": {}, "sensitive_attributes": [], "dependencies": ["cloud_server.web"]},
      {"index_key": "c", "schema_version": 0, "attributes": {}, "sensitive_attributes": [], "dependencies": ["cloud_server.job[\"clean up\"]"]}]},
    {"module": "module.dns", "mode": "managed", "type": "cloud_record", "name": "web",
     "provider": "module.dns.provider[\"example.org/x/cloud\"].alias",
     "instances": [
      {"index_key": 0, "schema_version": 0, "attributes": {}, "sensitive_attributes": [],
       "dependencies": ["cloud_server.web", "module.dns.cloud_zone_file.root"]},
      {"index_key": 1, "schema_version": 0, "attributes": {}, "sensitive_attributes": [],
       "dependencies": ["cloud_server.web", "module.dns.cloud_zone_file.root"]}]},
    {"module": "module.dns", "mode": "managed", "type": "cloud_zone_file", "name": "root",
     "provider": "module.dns.provider[\"example.org/x/cloud\"].alias",
     "instances": [{"schema_version": 0, "attributes": {}, "sensitive_attributes": []}]},
    {"module": "module.watch[0].module.rule[\"x\"]", "mode": "managed", "type": "cloud_alarm", "name": "cpu",
     "provider": "provider[\"example.org/x/cloud\"]",
     "instances": [{"index_key": "web", "schema_version": 0, "attributes": {}, "sensitive_attributes": [],
      "dependencies": ["cloud_server.web", "module.watch.cloud_topic.all"]}]},
    {"module": "module.watch[0]", "mode": "managed", "type": "cloud_topic", "name": "all", "provider": "provider[\"example.org/x/cloud\"]",
     "instances": [{"schema_version": 0, "attributes": {}, "sensitive_attributes": []}]},
    {"module": "module.watch[1].module.rule[\"x\"]", "mode": "managed", "type": "cloud_alarm", "name": "cpu",
     "provider": "provider[\"example.org/x/cloud\"]",
     "instances": [{"index_key": "web", "schema_version": 0, "attributes": {}, "sensitive_attributes": [],
      "dependencies": ["cloud_server.web", "module.watch.cloud_topic.all"]}]},
    {"module": "module.watch[1]", "mode": "managed", "type": "cloud_topic", "name": "all", "provider": "provider[\"example.org/x/cloud\"]",
     "instances": [{"schema_version": 0, "attributes": {}, "sensitive_attributes": []}]},
    {"mode": "managed", "type": "random_id", "name": "seed", "provider": "provider[\"example.org/x/random\"]", "instances": []},
    {"mode": "managed", "type": "null_resource", "name": "after", "provider": "provider[\"example.org/x/null\"]",
     "instances": [
      {"schema_version": 0, "attributes": {}, "sensitive_attributes": [],
       "dependencies": ["module.watch.module.rule.cloud_alarm.cpu", "random_id.seed"]},
      {"deposed": "00000000", "schema_version": 0, "attributes": {}, "sensitive_attributes": [], "dependencies": ["null_resource.after"]}]},
    {"module": "module.tail", "mode": "managed", "type": "cloud_key", "name": "ssh", "provider": "provider[\"example.org/x/cloud\"]",
     "instances": [
      {"index_key": "", "schema_version": 0, "attributes": {}, "sensitive_attributes": []},
      {"index_key": 18446744073709551615, "schema_version": 0, "attributes": {}, "sensitive_attributes": []},
      {"schema_version": 0, "attributes": {}, "sensitive_attributes": [], "dependencies": ["module.tail.cloud_key.ssh[\"\"]"]}]}
  ],
  "check_results": null
}
'''

# Its instances in the order of the text: an instance's address, its configuration address, and the
# numbers of its dependencies.
WRITTEN_LINES = r'''data.cloud_image.linux of data.cloud_image.linux:
cloud_network.main of cloud_network.main:
module.zone["east"].data.cloud_zone.this of module.zone.data.cloud_zone.this:
module.zone["east"].cloud_subnet.private[0] of module.zone.cloud_subnet.private: 1 2 7
module.zone["east"].cloud_subnet.private[1] of module.zone.cloud_subnet.private: 1 2 7
module.zone["east"].cloud_subnet.private[2] of module.zone.cloud_subnet.private: 1 2 7
module.zone["east"].module.gate.cloud_gateway.out of module.zone.module.gate.cloud_gateway.out: 3 4 5 8 9
module.zone["west"].data.cloud_zone.this of module.zone.data.cloud_zone.this:
module.zone["west"].cloud_subnet.private[0] of module.zone.cloud_subnet.private: 1 2 7
module.zone["west"].cloud_subnet.private[1] of module.zone.cloud_subnet.private: 1 2 7
cloud_server.web[0] of cloud_server.web: 0 1 3 4 5 8 9
cloud_server.web[1] of cloud_server.web: 0 1 3 4 5 8 9
cloud_server.web[1] (deposed 5a9c01ef) of cloud_server.web: 1
cloud_server.job["clean up"] of cloud_server.job: 0 10 11 12
cloud_server.job["naïve\"]"] of cloud_server.job: 10 11 12
cloud_disk.data["a"] of cloud_disk.data: 10 11 12
cloud_disk.data["b"] of cloud_disk.data: 10 11 12
cloud_disk.data["c"] of cloud_disk.data: 13 14
module.dns.cloud_record.web[0] of module.dns.cloud_record.web: 10 11 12 20
module.dns.cloud_record.web[1] of module.dns.cloud_record.web: 10 11 12 20
module.dns.cloud_zone_file.root of module.dns.cloud_zone_file.root:
module.watch[0].module.rule["x"].cloud_alarm.cpu["web"] of module.watch.module.rule.cloud_alarm.cpu: 10 11 12 22 24
module.watch[0].cloud_topic.all of module.watch.cloud_topic.all:
module.watch[1].module.rule["x"].cloud_alarm.cpu["web"] of module.watch.module.rule.cloud_alarm.cpu: 10 11 12 22 24
module.watch[1].cloud_topic.all of module.watch.cloud_topic.all:
null_resource.after of null_resource.after: 21 23
null_resource.after (deposed 00000000) of null_resource.after: 25 26
module.tail.cloud_key.ssh[""] of module.tail.cloud_key.ssh:
module.tail.cloud_key.ssh[18446744073709551615] of module.tail.cloud_key.ssh:
module.tail.cloud_key.ssh of module.tail.cloud_key.ssh: 27 28 29
'''
