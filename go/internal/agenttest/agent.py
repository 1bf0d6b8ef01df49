"""A Workload API for tests, by gRPC's own server and protobuf's own writer. Standard input says which bundles it gives.

    agent.py ADDRESS    as unix:/path or 127.0.0.1:0

It prints the port, or 1 for a path. Then each line of standard input is a JSON object: {"bundles": {NAME: TEXT}} is given to
all streams, and to each that begins later; {"code": NAME, "why": TEXT} ends all streams, and each that begins later; and
{"quit": true} lets it end. After each line it prints how many streams there are.
"""

import concurrent.futures
import json
import sys
import threading

import grpc
from google.protobuf import descriptor_pb2, descriptor_pool, message_factory


def response_class():
    """The class of JWTBundlesResponse: map<string, bytes> bundles = 1."""
    file = descriptor_pb2.FileDescriptorProto(name="workload.proto", syntax="proto3")
    message = file.message_type.add(name="JWTBundlesResponse")
    entry = message.nested_type.add(name="BundlesEntry")
    entry.options.map_entry = True
    kinds = descriptor_pb2.FieldDescriptorProto
    entry.field.add(name="key", number=1, type=kinds.TYPE_STRING, label=kinds.LABEL_OPTIONAL)
    entry.field.add(name="value", number=2, type=kinds.TYPE_BYTES, label=kinds.LABEL_OPTIONAL)
    message.field.add(
        name="bundles", number=1, type=kinds.TYPE_MESSAGE, type_name=".JWTBundlesResponse.BundlesEntry", label=kinds.LABEL_REPEATED
    )
    pool = descriptor_pool.DescriptorPool()
    pool.Add(file)
    return message_factory.MessageFactory(pool).GetPrototype(pool.FindMessageTypeByName("JWTBundlesResponse"))


Response = response_class()


class Agent:
    def __init__(self):
        self.changed = threading.Condition()
        self.said, self.number, self.streams = None, 0, 0

    def say(self, line):
        with self.changed:
            self.said = line
            self.number += 1
            self.changed.notify_all()
            return self.streams

    def fetch(self, request, context):
        """FetchJWTBundles: the request is the bytes of an empty message."""
        if dict(context.invocation_metadata()).get("workload.spiffe.io") != "true":
            context.abort(grpc.StatusCode.INVALID_ARGUMENT, "security header missing from request")
        if request:
            context.abort(grpc.StatusCode.INVALID_ARGUMENT, "the request is not empty")
        context.add_callback(self.ended)
        with self.changed:
            self.streams += 1
        seen = 0
        while context.is_active():
            with self.changed:
                if not self.changed.wait_for(lambda: self.number > seen, timeout=0.2):
                    continue
                said, seen = self.said, self.number
            if "code" in said:
                context.abort(grpc.StatusCode[said["code"]], said["why"])
            yield Response(bundles={name: text.encode() for name, text in said["bundles"].items()}).SerializeToString()

    def ended(self):
        with self.changed:
            self.streams -= 1


def main(address):
    agent = Agent()
    server = grpc.server(concurrent.futures.ThreadPoolExecutor(max_workers=8))
    method = grpc.unary_stream_rpc_method_handler(agent.fetch)
    server.add_generic_rpc_handlers((grpc.method_handlers_generic_handler("SpiffeWorkloadAPI", {"FetchJWTBundles": method}),))
    print(server.add_insecure_port(address), flush=True)
    server.start()
    for line in sys.stdin:
        said = json.loads(line)
        if "quit" in said:
            break
        print(agent.say(said), flush=True)
    server.stop(None)


if __name__ == "__main__":
    main(sys.argv[1])
