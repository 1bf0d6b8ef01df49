"""A workload for tests, by gRPC's own client and protobuf's own reader: it asks a Workload API.

    ask.py ADDRESS < QUESTION

The question is a JSON object: {"call": "FetchJWTSVID", "audience": [..], "id": ".."} or {"call": "FetchJWTBundles", "messages": 2}; with
{"header": false} it comes without the header that the standard wants. It prints one JSON object: the code of gRPC, what the server says of it,
and the tokens or the messages that came.
"""

import json
import sys

import grpc
from google.protobuf import descriptor_pb2, descriptor_pool, message_factory

KINDS = descriptor_pb2.FieldDescriptorProto


def classes():
    """The classes of the messages, by their names."""
    file = descriptor_pb2.FileDescriptorProto(name="asked.proto", syntax="proto3")

    def message(of, name, *fields):
        made = of.add(name=name)
        for number, (field, kind, label, type_name) in enumerate(fields, 1):
            made.field.add(name=field, number=number, type=kind, label=label, type_name=type_name)
        return made

    one, many = KINDS.LABEL_OPTIONAL, KINDS.LABEL_REPEATED
    message(file.message_type, "JWTSVIDRequest", ("audience", KINDS.TYPE_STRING, many, None), ("spiffe_id", KINDS.TYPE_STRING, one, None))
    message(file.message_type, "JWTSVID", ("spiffe_id", KINDS.TYPE_STRING, one, None), ("svid", KINDS.TYPE_STRING, one, None))
    message(file.message_type, "JWTSVIDResponse", ("svids", KINDS.TYPE_MESSAGE, many, ".JWTSVID"))
    bundles = message(file.message_type, "JWTBundlesResponse", ("bundles", KINDS.TYPE_MESSAGE, many, ".JWTBundlesResponse.BundlesEntry"))
    entry = message(bundles.nested_type, "BundlesEntry", ("key", KINDS.TYPE_STRING, one, None), ("value", KINDS.TYPE_BYTES, one, None))
    entry.options.map_entry = True
    pool = descriptor_pool.DescriptorPool()
    pool.Add(file)
    factory = message_factory.MessageFactory(pool)
    return {it.name: factory.GetPrototype(pool.FindMessageTypeByName(it.name)) for it in file.message_type}


def main(address):
    asked, of = json.load(sys.stdin), classes()
    metadata = [("workload.spiffe.io", "true")] if asked.get("header", True) else []
    said = {"code": "OK", "why": "", "tokens": [], "messages": []}
    with grpc.insecure_channel(address) as channel:
        path = f"/SpiffeWorkloadAPI/{asked['call']}"
        try:
            if asked["call"] == "FetchJWTBundles":
                stream = channel.unary_stream(path)(b"", metadata=metadata)
                for message in stream:
                    bundles = of["JWTBundlesResponse"].FromString(message).bundles
                    said["messages"].append({name: text.decode() for name, text in bundles.items()})
                    if len(said["messages"]) == asked.get("messages", 1):
                        stream.cancel()
                        break
            else:
                request = of["JWTSVIDRequest"](audience=asked.get("audience", []), spiffe_id=asked.get("id", ""))
                answer = channel.unary_unary(path)(request.SerializeToString(), metadata=metadata)
                said["tokens"] = [{"id": it.spiffe_id, "token": it.svid} for it in of["JWTSVIDResponse"].FromString(answer).svids]
        except grpc.RpcError as error:
            said.update(code=error.code().name, why=error.details())
    print(json.dumps(said))


if __name__ == "__main__":
    main(sys.argv[1])
